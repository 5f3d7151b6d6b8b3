"""The crates of this repository, as crates.txt lists them."""


def read_crates(top):
    """The crates of crates.txt, each with those of them that it depends on."""
    listed = {}
    with open(f"{top}/crates.txt", encoding="utf-8") as file:
        for line in file:
            name, _, below = line.split("#")[0].partition(":")
            if name.strip():
                listed[name.split()[0]] = below.split()
    return {name: [it for it in below if it in listed] for name, below in listed.items()}


def from_the_ground(crates, names):
    """These crates and all that they depend on, each after those below it."""
    order = []

    def visit(name):
        if name in order:
            return
        for below in crates[name]:
            visit(below)
        order.append(name)

    for name in names:
        visit(name)
    return order
