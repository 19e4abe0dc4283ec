"""Bundles drawn so that what is answered turns on the order of steps: loaders under one another that each have a class of the same name,
and references and links that want these to be one class."""
import random

OBJECT = "java/lang/Object"
LOADERS = ["app", "one", "two", "three"]
CONFIG = ['[[loader]]', 'name = "boot"', '[[loader]]', 'name = "app"', 'parent = "boot"'] + [
    line for name in LOADERS[1:] for line in ("[[loader]]", f'name = "{name}"', 'parent = "app"', 'order = "child"')]


def drawn(seed, most=16):
    """A bundle, the same for the same seed."""
    chance = random.Random(seed)
    types = [f"p/T{n}" for n in range(chance.randint(1, 2))]
    services = [f"p/S{n}" for n in range(2)]
    lines = ["%config", *CONFIG, f"%class boot {OBJECT}", f"class 0021 {OBJECT} -"]

    def described():
        return f"({''.join(f'L{chance.choice(types)};' for _ in range(chance.randint(1, 2)))})V"

    methods = {name: [f"m{n} {described()}" for n in range(2)] for name in services}
    for name in services:
        lines += [f"%class app {name}", f"class 0021 {name} {OBJECT}", f"field 0001 f L{chance.choice(types)};"]
        lines += [f"method 0001 {method}" for method in methods[name]]
    for loader in LOADERS:
        for name in types:
            if chance.random() < 0.9:
                lines += [f"%class {loader} {name}", f"class 0021 {name} {OBJECT}"]
        above = chance.choice(services)
        lines += [f"%class {loader} q/Over", f"class 0021 q/Over {above}", f"method 0001 {chance.choice(methods[above])}"]
        lines += [f"%class {loader} q/Use", f"class 0021 q/Use {OBJECT}", f"ref class {chance.choice(types)}"]
        lines += [f"ref method {name} {method}" for name in services for method in methods[name]]

    def request():
        loader = chance.choice(LOADERS)
        return chance.choice([f"load {loader} {chance.choice(types)}", f"link {loader} q/Over",
                              f"resolve {loader} q/Use {chance.randint(1, 5)}"])

    script = [request() for _ in range(chance.randint(most // 2, most))]
    for _ in range(chance.choice([0, 0, 0, 1, 2])):
        script.insert(chance.randint(0, len(script)), "then")
    return "".join(line + "\n" for line in [*lines, "%script", *script])
