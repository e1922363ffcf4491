"""Where the toolchain leaves what is compared: a program by `rt run`, the archive for C by `rt lib`, each in its crate's folder."""

ARCHIVE = "crates/optc/out"


def program(name):
    """A program's path from the root of the repository."""
    return "crates/%s/out/%s" % (name, name)
