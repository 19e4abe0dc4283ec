"""Loading and linking by the rules of docs/RULES.md, request by request. A class is its name and the loader that defined it."""
import functools

from classes import ABSTRACT, PRIVATE, PROTECTED, PUBLIC, STATIC, escaped

OBJECT = "java/lang/Object"


class Ended(Exception):
    """A request's answer that is an error."""


def package(name):
    return name.rpartition("/")[0]


def types_of(desc):
    """The class names of a descriptor: of the return type, then of each parameter."""
    head, _, back = desc.rpartition(")")
    names, rest = [], head.lstrip("(")
    while rest:
        plain = rest.lstrip("[")
        if plain[0] == "L":
            names.append(plain[1:plain.index(";")])
        rest = plain[plain.index(";") + 1:] if plain[0] == "L" else plain[1:]
    back = back.lstrip("[")
    return ([back[1:-1]] if back[:1] == "L" else []) + names


class Machine:
    def __init__(self, loaders, content):
        self.loaders, self.content = loaders, content
        self.records, self.settled, self.prepared, self.equalities, self.history = {}, {}, set(), [], []
        # several parents may lead to one loader, which is searched for a name once
        self.home = functools.cache(self.home)

    # ---- texts

    def at(self, name, loader):
        return f"{escaped(name)}@{self.loaders[loader]['name']}"

    def fail(self, error, c):
        raise Ended(f"{error} {self.at(*c)}")

    def tell(self, *words):
        self.history.append(" ".join(words))

    # ---- loading

    def home(self, loader, name):
        """Where a search ends (5.3.2)."""
        if name.startswith("java/"):
            return 0 if (0, name) in self.content else None
        told = self.loaders[loader]
        for prefix, target in told["imports"]:
            if name.startswith(prefix):
                return self.home(target, name)
        own = loader if (loader, name) in self.content else None
        above = next((home for home in (self.home(parent, name) for parent in told["parents"]) if home is not None), None)
        first, second = (own, above) if told["order"] == "child" else (above, own)
        return second if first is None else first

    def load(self, loader, name, path=(), missing="NoClassDefFoundError"):
        if (loader, name) in self.records:
            return name, self.records[loader, name]
        home = self.home(loader, name)
        if home is None:
            self.fail(missing, (name, loader))
        if (home, name) not in self.records:
            self.derive((name, home), path)
        if home != loader:
            self.record(loader, name, home)
            self.tell("initiate", escaped(name), self.loaders[home]["name"], "by", self.loaders[loader]["name"])
        return name, home

    def derive(self, c, path):
        """Steps 1 to 6 of 'Derivation' (5.3.5)."""
        name, home = c
        if c in path:
            self.fail("ClassCircularityError", c)
        file = self.content[home, name]
        if isinstance(file, str):
            self.fail(file, c)
        if file.name != name:
            self.fail("NoClassDefFoundError", c)
        for place, above in enumerate([file.above] * (file.above is not None) + file.interfaces):
            s = self.load(home, above, path + (c,))
            if not self.class_accessible(s, c):
                self.fail("IllegalAccessError", s)
            if self.file(s).is_interface() != (place > 0 or file.above is None):
                self.fail("IncompatibleClassChangeError", s)
        self.record(home, name, home)
        self.tell("define", self.at(name, home))

    # ---- constraints (5.3.4)

    def joined(self, name, loader):
        found = {loader}
        while True:
            more = {b for n, *pair in self.equalities if n == name and found & set(pair) for b in pair} | found
            if more == found:
                return found
            found = more

    def homes(self, name, loaders):
        return {self.records[l, name] for l in loaders if (l, name) in self.records}

    def record(self, loader, name, home):
        if self.homes(name, self.joined(name, loader)) - {home}:
            raise Ended(f"LinkageError record {self.at(name, loader)}")
        self.records[loader, name] = home

    def make_equal(self, desc, a, b):
        a, b = min(a, b), max(a, b)
        for name in types_of(desc):
            joined = self.joined(name, a)
            if b in joined:
                continue
            words = escaped(name), self.loaders[a]["name"], self.loaders[b]["name"]
            if len(self.homes(name, joined | self.joined(name, b))) > 1:
                raise Ended(f"LinkageError equal {' '.join(words)}")
            self.equalities.append((name, a, b))
            self.tell("constrain", *words)

    # ---- recorded classes and what stands above them

    def file(self, c):
        return self.content[c[1], c[0]]

    def above(self, c):
        name = self.file(c).above
        return None if name is None else (name, self.records[c[1], name])

    def interfaces(self, c):
        return [(name, self.records[c[1], name]) for name in self.file(c).interfaces]

    def superclasses(self, c):
        found, c = [], self.above(c)
        while c:
            found.append(c)
            c = self.above(c)
        return found

    def superinterfaces(self, c):
        found = []
        for i in self.interfaces(c):
            found += [i] + self.superinterfaces(i)
        return list(dict.fromkeys(found + (self.superinterfaces(self.above(c)) if self.above(c) else [])))

    def lineage(self, c):
        found = [*self.lineage(self.above(c))] if self.above(c) else []
        for i in self.interfaces(c):
            found += self.lineage(i)
        return list(dict.fromkeys(found + [c]))

    def field(self, c, key):
        return next((m for m in self.file(c).fields if m.key == key), None)

    def method(self, c, key):
        return next((m for m in self.file(c).methods if m.key == key), None)

    def same_package(self, c, d):
        return package(c[0]) == package(d[0]) and c[1] == d[1]

    # ---- access (5.4.4)

    def class_accessible(self, c, d):
        return bool(self.file(c).flags & PUBLIC) or self.same_package(c, d)

    def member_accessible(self, member, owner, c, d):
        if member.flags & PUBLIC:
            return True
        if member.flags & PRIVATE:
            return owner == d
        if member.flags & PROTECTED and owner in [d] + self.superclasses(d):
            if member.flags & STATIC or c == d or d in self.superclasses(c) or c in self.superclasses(d):
                return True
        return self.same_package(owner, d)

    # ---- lookup (5.4.3.2 to 5.4.3.4)

    def find_field(self, c, key):
        if self.field(c, key):
            return c
        for above in self.interfaces(c) + [self.above(c)] * bool(self.above(c)):
            found = self.find_field(above, key)
            if found:
                return found
        return None

    def of_interfaces(self, c, key):
        """The maximally specific method that is not abstract, if there is one, else the first that a superinterface offers."""
        offers = [i for i in self.superinterfaces(c) if self.method(i, key) and not self.method(i, key).flags & (PRIVATE | STATIC)]
        best = [i for i in offers if not any(i in self.superinterfaces(j) for j in offers if j != i)]
        real = [i for i in best if not self.method(i, key).flags & ABSTRACT]
        return real[0] if len(real) == 1 else next(iter(offers), None)

    def find_method(self, c, key):
        return next((k for k in [c] + self.superclasses(c) if self.method(k, key)), None) or self.of_interfaces(c, key)

    def find_interface_method(self, c, key):
        if self.method(c, key):
            return c
        top = self.above(c)
        if self.method(top, key) and self.method(top, key).flags & (PUBLIC | STATIC) == PUBLIC:
            return top
        return self.of_interfaces(c, key)

    # ---- resolution (5.4.3)

    def resolve(self, loader, name, index):
        d = self.load(loader, name, missing="ClassNotFoundException")
        ref = self.file(d).refs.get(index, ("int",))
        if ref[0] not in ("class", "field", "method", "imethod"):
            return "BadEntry"
        if ref[0] != "class" and ref[1].startswith("["):
            return "ArrayMember"
        if (d, index) not in self.settled:
            try:
                self.settled[d, index] = self.class_verdict(d, ref[1]) if ref[0] == "class" else self.member_verdict(d, *ref)
            except Ended as ended:
                self.settled[d, index] = str(ended)
        return self.settled[d, index]

    def accessed(self, d, name):
        c = self.load(d[1], name)
        if not self.class_accessible(c, d):
            self.fail("IllegalAccessError", c)
        return c

    def class_verdict(self, d, name):
        element = name.lstrip("[")
        depth = len(name) - len(element)
        if not depth:
            return f"class {self.at(*self.accessed(d, name))}"
        return f"array {depth} {self.at(*self.accessed(d, element[1:-1])) if element[0] == 'L' else element}"

    def member_verdict(self, d, kind, name, member, desc):
        c, key = self.accessed(d, name), (member, desc)
        if kind != "field" and self.file(c).is_interface() != (kind == "imethod"):
            self.fail("IncompatibleClassChangeError", c)
        owner = {"field": self.find_field, "method": self.find_method, "imethod": self.find_interface_method}[kind](c, key)
        if owner is None:
            self.fail("NoSuchFieldError" if kind == "field" else "NoSuchMethodError", c)
        found = self.field(owner, key) if kind == "field" else self.method(owner, key)
        if not self.member_accessible(found, owner, c, d):
            self.fail("IllegalAccessError", owner)
        self.make_equal(desc, owner[1], d[1])
        return f"{'field' if kind == 'field' else 'method'} {self.at(*owner)} {escaped(member)} {escaped(desc)}"

    # ---- linking (5.4.2, 5.4.5)

    def takes_part(self, m):
        return bool(m) and not m.flags & (PRIVATE | STATIC) and m.name not in ("<init>", "<clinit>")

    def overrides(self, c, key, a):
        mine, other = self.method(c, key), self.method(a, key)
        if not (self.takes_part(mine) and self.takes_part(other)):
            return False
        if other.flags & (PUBLIC | PROTECTED) or self.same_package(a, c):
            return True
        supers = self.superclasses(c)
        return any(self.overrides(c, key, b) and self.overrides(b, key, a) for b in supers[:supers.index(a)])

    def impose(self, c):
        """The constraints of preparation, in their order."""
        file, supers = self.file(c), self.superclasses(c)
        for m in file.methods:
            if self.takes_part(m):
                over = [] if file.is_interface() else [a for a in supers if self.overrides(c, m.key, a)]
                over += [i for i in self.superinterfaces(c) if self.method(i, m.key) and not self.method(i, m.key).flags & (PRIVATE | STATIC)]
                for other in over:
                    self.make_equal(m.desc, c[1], other[1])
        for i in [] if file.is_interface() else self.superinterfaces(c):
            for m in self.file(i).methods:
                if self.takes_part(m) and not self.method(c, m.key):
                    near = [a for a in supers if self.method(a, m.key) and not self.method(a, m.key).flags & (PRIVATE | STATIC)]
                    for a in near[:1]:
                        self.make_equal(m.desc, a[1], i[1])

    def link(self, loader, name):
        c = self.load(loader, name, missing="ClassNotFoundException")
        for k in self.lineage(c):
            if k not in self.prepared:
                self.impose(k)
                self.prepared.add(k)
                self.tell("prepare", self.at(*k))
        return f"linked {self.at(*c)}"

    # ---- a request's line

    def answer(self, verb, loader, name, *index):
        try:
            if verb == "load":
                return f"class {self.at(*self.load(loader, name, missing='ClassNotFoundException'))}"
            return self.link(loader, name) if verb == "link" else self.resolve(loader, name, *index)
        except Ended as ended:
            return str(ended)
