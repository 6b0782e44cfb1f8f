"""Families of comparisons for the benchmarks: each makes two systems of a size, as a number of states and a list of steps."""

STATES, LABELS = 60, 8
COMPLETE = 40


def chains(n):
    """n steps under a, and then b or c, which are chosen last on the left and with the first step on the right."""
    left = [(i, "a", i + 1) for i in range(n)] + [(n, "b", n + 1), (n, "c", n + 1)]
    right = [(0, "a", 1), (0, "a", n + 1)]
    for i in range(1, n):
        right += [(i, "a", i + 1), (n + i, "a", n + i + 1)]
    right += [(n, "b", 2 * n + 1), (2 * n, "c", 2 * n + 1)]
    return (n + 2, left), (2 * n + 2, right)


def dense(block):
    """60 states on each side in blocks; under each of 8 labels each state leads to all states of one block."""
    blocks = STATES // block

    def side(move):
        return [
            (state, "a%d" % label, (state // block + move(label)) % blocks * block + k)
            for state in range(STATES)
            for label in range(LABELS)
            for k in range(block)
        ]

    return (STATES, side(lambda label: label)), (STATES, side(lambda label: label // 2))


def dense_apart(block):
    """The same, but that the last state of the left has no step under the last label."""
    (states, left), right = dense(block)
    last = "a%d" % (LABELS - 1)
    return (states, [step for step in left if step[:2] != (states - 1, last)]), right


def lattices(n):
    """One step on the left, and on the right a step under the same label to each of n states."""
    return (2, [(0, "a", 1)]), (n + 1, [(0, "a", i + 1) for i in range(n)])


def lattices_apart(n):
    """After the step the left has n labels, and each of the n states on the right all but one of them."""
    left = [(0, "a", 1)] + [(1, "b%d" % j, 2) for j in range(n)]
    right = [(0, "a", i + 1) for i in range(n)]
    right += [(i + 1, "b%d" % j, n + 1) for i in range(n) for j in range(n) if i != j]
    return (3, left), (n + 2, right)


def alphabets(n):
    """One state on each side, from which a step under each of n labels leads back."""
    side = (1, [(0, "a%d" % label, 0) for label in range(n)])
    return side, side


def complete(n):
    """n states on each side; from each a step under each of 40 labels leads to a state that is drawn."""

    def side(drawn):
        steps = []
        for state in range(n):
            for label in range(COMPLETE):
                drawn = (drawn * 6364136223846793005 + 1442695040888963407) % 2**64
                steps.append((state, "a%d" % label, (drawn >> 33) % n))
        return n, steps

    return side(1), side(2)


def buffers(places):
    """A queue of so many places for the values 0 and 1 on the left, and on the right a bag, which keeps no order."""

    def side(put, get):
        numbers, steps, found = {(): 0}, [], [()]
        for content in found:
            moves = [("PUT !%d" % value, put(content, value)) for value in (0, 1) if len(content) < places]
            moves += [("GET !%d" % value, rest) for value, rest in get(content)]
            for label, content_after in moves:
                if content_after not in numbers:
                    numbers[content_after] = len(found)
                    found.append(content_after)
                steps.append((numbers[content], label, numbers[content_after]))
        return len(found), steps

    def take(content, value):
        place = content.index(value)
        return content[:place] + content[place + 1 :]

    queue = side(lambda content, value: content + (value,), lambda content: [(content[0], content[1:])] if content else [])
    bag = side(
        lambda content, value: tuple(sorted(content + (value,))),
        lambda content: [(value, take(content, value)) for value in sorted(set(content))],
    )
    return queue, bag


def write(systems, *paths):
    """Writes the two systems as .aut texts."""
    for path, (states, steps) in zip(paths, systems):
        with open(path, "w") as file:
            file.write("des (0, %d, %d)\n" % (len(steps), states))
            file.writelines('(%d, "%s", %d)\n' % step for step in steps)
