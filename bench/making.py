"""What the scripts share that write the inputs of references and of many loaders: the list of all that are made, and sections with
lines."""
import os

# What makes a bundle, what the bundle is, and by what number it has about a megabyte, if it is made so large too; by its name.
MADE = {}
# How many names of classes stand in methods and references, where it is many.
NAMES = 1000


def made(what, megabyte=None):
    """Lists the function by its name as what makes such a bundle."""

    def listed(make):
        MADE[make.__name__] = make, what, megabyte
        return make

    return listed


def write_all(folder):
    os.makedirs(folder, exist_ok=True)
    for name, (make, _, megabyte) in MADE.items():
        make(f"{folder}/{name}")
        if megabyte:
            make(f"{folder}/{name}_mb", megabyte)


def with_lines(class_section, lines):
    return class_section + "".join(f"{line}\n" for line in lines)
