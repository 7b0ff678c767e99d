"""Writes the steps of a walk by hand, as the older kit took them. No walk is left, and nothing uses it now.

In a walk everything that is had stands in a list, and each step names what it
takes by its place there; a place changes with every step. A `Walk` keeps the
list by name and writes each step with the places that it finds.

>>> walk = Walk(cells(2) + ["tokens", "owned"])
>>> walk.fsplit("owned", "sheet", "rest")
>>> walk.split("tokens", "token", "true")
>>> walk.assign("of_opd ! (" + walk.load("l1") + ")", "l0", "(tt, tt)")
>>> walk.keep("sheet", "token", *cells(2))
>>> walk.forget("l0", "l1")
>>> walk.free(2)
>>> print(walk.ended("by ! exits"))
move ! (5 ∷ []) $ fsplit ! $ move ! (6 ∷ []) $ split ! $
assigns ! (of_opd ! (load ! (from ! (stop !)) (look ! 4 refl))) (from ! (stop !)) (init ! 6 refl (tt, tt)) $
keep ! (2 ∷ 0 ∷ 4 ∷ 5 ∷ 6 ∷ 7 ∷ []) $ forget ! 4 refl $ forget ! 2 refl $
move ! (4 ∷ 5 ∷ []) $ free1 ! $ move ! (2 ∷ 3 ∷ []) $ free1 ! $ free0 ! $ by ! exits
"""


def cells(count):
    """The locals, the last first, each beside that it dies: l1, d1, l0, d0."""
    return [name for i in reversed(range(count)) for name in (f"l{i}", f"d{i}")]


class Walk:
    """A walk from what is had, by name, on."""

    def __init__(self, had):
        self.had = list(had)
        self.lines = [""]
        self.binders = 0

    def place(self, name):
        """Where it stands."""
        return self.had.index(name)

    def places(self, names):
        """Where they stand, as a list of the calculus."""
        return "(" + "".join(f"{self.place(name)} ∷ " for name in names) + "[])"

    def say(self, step):
        """One step, as it is."""
        line = self.lines[-1]
        joint = "" if not line or line.endswith(". ") else " $ "
        self.lines[-1] = line + joint + step

    def line(self):
        """The next step begins a line."""
        if self.lines[-1] and not self.lines[-1].endswith(". "):
            self.lines[-1] += " $"
        self.lines.append("")

    def bind(self, step, name):
        """A step that goes on under a binder, as `pick` or `feqL`."""
        self.say(f"{step} (λ {name}. ")
        self.binders += 1

    def move(self, *names):
        """They come first, in this order."""
        if self.had[: len(names)] != list(names):
            self.say(f"move ! {self.places(names)}")
            self.had = list(names) + [name for name in self.had if name not in names]

    def keep(self, *names):
        """They stay, in this order, and nothing else."""
        self.say(f"keep ! {self.places(names)}")
        self.had = list(names)

    def push(self, name):
        """What a step put first."""
        self.had.insert(0, name)

    def drop(self, name):
        """It goes."""
        self.move(name)
        self.say("drop !")
        self.had.pop(0)

    def split(self, name, *parts, step="split !"):
        """It gives way to its two parts."""
        self.move(name)
        self.say(step)
        self.had[:1] = parts

    def fsplit(self, name, *parts):
        """The same of a formula."""
        self.split(name, *parts, step="fsplit !")

    def join(self, name, one, other, step="join !"):
        """Two become one."""
        self.move(one, other)
        self.say(step)
        self.had[:2] = [name]

    def fjoin(self, name, one, other):
        """The same of formulas."""
        self.join(name, one, other, step="fjoin !")

    def use(self, item, lemma, old, new, later=False):
        """A lemma makes one thing of others; at once, or after an update."""
        self.move(*old)
        item = f"(later {item})" if later else item
        self.say(f"use{len(old)} 𝓛 {item} ({lemma})")
        if later:
            self.say("await ! tt")
        self.had[: len(old)] = [new]

    def look(self, local):
        """A cell that is read."""
        return f"look ! {self.place(local)} refl"

    def load(self, local):
        """A local as an operand."""
        return f"load ! (from ! (stop !)) ({self.look(local)})"

    def operands(self, *loads):
        """The operands of a call or an aggregate."""
        chain = "no_more !"
        for load in reversed(loads):
            chain = f"and_then ! ({load}) ({chain})"
        return f"({chain})"

    def assign(self, value, local, typed):
        """A value is stored in a local that holds nothing yet."""
        self.line()
        place = f"init ! {self.place(local)} refl {typed}"
        self.say(f"assigns ! ({value}) (from ! (stop !)) ({place})")
        self.line()

    def forget(self, *locals):
        """They hold nothing any more."""
        for local in locals:
            self.say(f"forget ! {self.place(local)} refl")

    def free(self, count):
        """All locals die, the first first."""
        self.line()
        for i in range(count):
            self.move(f"l{i}", f"d{i}")
            self.say("free1 !")
            self.had = self.had[2:]
        self.say("free0 !")

    def ended(self, step):
        """The whole, with a last step and all binders closed."""
        self.say(step)
        self.lines[-1] += ")" * self.binders
        return "\n".join(line for line in self.lines if line)
