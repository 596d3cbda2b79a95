"""Lists what the Rust crate offers, for check/api, from what rustdoc says of it in JSON.

That form is not stable, so it is asked of a toolchain of the versions below alone; a stable one has it by
RUSTC_BOOTSTRAP. What is hidden in the documents is not listed, but for what is left of another version as deprecated.
"""

import json
import os
import re
import shutil

import runner
from runner import TOP, Failed, LeftOut

MANIFEST = os.path.join(TOP, "bindings", "rust", "Cargo.toml")
FORMATS = range(45, 70)
SECONDS = 600
# Traits that say nothing to a program, or little.
NOT_LISTED = {"Drop", "Freeze", "RefUnwindSafe", "StructuralPartialEq", "Unpin", "UnsafeUnpin", "UnwindSafe"}
# Of these names of std the module is told too: the crate has its own.
AMONG_OTHERS = {"Error", "Result"}


def said_by_rustdoc(folder):
    """What rustdoc says of the crate."""
    if not shutil.which("cargo"):
        raise LeftOut("no cargo")
    words = ["cargo", "rustdoc", "--offline", "--quiet", "--lib", "--manifest-path", MANIFEST, "--", "-Z",
             "unstable-options", "--output-format", "json", "--document-hidden-items"]
    ran = runner.ended(words, SECONDS, {"RUSTC_BOOTSTRAP": "1", "DOCS_RS": "1", "CARGO_TARGET_DIR": folder})
    if ran.returncode:
        raise Failed(f"{' '.join(words)}: status {ran.returncode}\n{ran.stdout[-2000:]}")
    with open(os.path.join(folder, "doc", "hojzmated.json"), encoding="utf-8") as file:
        said = json.load(file)
    if said["format_version"] not in FORMATS:
        raise LeftOut(f"rustdoc has format {said['format_version']}, which check/api_rust.py does not know")
    return said


class Crate:
    """The items of a crate, and the path by which a program names each that it can name."""

    def __init__(self, said):
        self.items = said["index"]
        self.paths = {}
        self.public = []
        self.walk(self.item(said["root"]), "")

    def item(self, key):
        """An item, if a program may know of it."""
        found = self.items.get(str(key))
        return None if found and "doc(hidden)" in str(found["attrs"]) and not found["deprecation"] else found

    def walk(self, module, path):
        """Notes all that a module offers, with what it lends on."""
        for key in module["inner"]["module"]["items"]:
            item = self.items.get(str(key))
            used = item["inner"].get("use") if item else None
            if used and used["is_glob"]:
                self.walk(self.items[str(used["id"])], path)
                continue
            item = self.item(key)
            if item is None or item["visibility"] != "public":
                continue
            name = item["name"]
            if used:
                item, name = self.item(used["id"]), used["name"]
            if item is None or name is None:
                continue
            own = f"{path}{name}"
            self.public.append((own, item))
            self.paths.setdefault(item["id"], own)
            if "module" in item["inner"]:
                self.walk(item, f"{own}::")

    # ---- Types, as a program writes them

    def path(self, it):
        """A type or a trait by its path, with its arguments."""
        name = self.paths.get(it["id"])
        if not name:
            words = it["path"].split("::")
            name = "::".join(words[-2:] if words[-1] in AMONG_OTHERS else words[-1:])
        return name + self.arguments(it.get("args"))

    def arguments(self, args):
        if not args:
            return ""
        if "parenthesized" in args:
            told = args["parenthesized"]
            return f"({', '.join(map(self.type, told['inputs']))}){self.result(told['output'])}"
        told = args.get("angle_bracketed")
        if not told:
            return ""
        listed = [self.argument(it) for it in told["args"]]
        for it in told.get("constraints") or told.get("bindings") or []:
            binding = it["binding"]
            listed.append(f"{it['name']} = {self.term(binding['equality'])}" if "equality" in binding
                          else f"{it['name']}: {self.bounds(binding['constraint'])}")
        return f"<{', '.join(listed)}>" if listed else ""

    def argument(self, it):
        if it == "infer":
            return "_"
        if "lifetime" in it:
            return it["lifetime"]
        return self.type(it["type"]) if "type" in it else it["const"]["expr"]

    def term(self, it):
        return self.type(it["type"]) if "type" in it else it["constant"]["expr"]

    def result(self, output):
        return f" -> {self.type(output)}" if output else ""

    def type(self, it):
        if it == "infer":
            return "_"
        (kind, told), = it.items()
        return getattr(self, f"type_{kind}")(told)

    def type_resolved_path(self, told):
        return self.path(told)

    def type_generic(self, told):
        return told

    def type_primitive(self, told):
        return "!" if told == "never" else told

    def type_tuple(self, told):
        return f"({', '.join(map(self.type, told))})"

    def type_slice(self, told):
        return f"[{self.type(told)}]"

    def type_array(self, told):
        return f"[{self.type(told['type'])}; {told['len']}]"

    def type_raw_pointer(self, told):
        return f"*{'mut' if told['is_mutable'] else 'const'} {self.type(told['type'])}"

    def type_borrowed_ref(self, told):
        lifetime = f"{told['lifetime']} " if told["lifetime"] else ""
        return f"&{lifetime}{'mut ' if told['is_mutable'] else ''}{self.type(told['type'])}"

    def type_impl_trait(self, told):
        return f"impl {self.bounds(told)}"

    def type_dyn_trait(self, told):
        listed = [self.path(it["trait"]) for it in told["traits"]]
        return f"dyn {' + '.join(listed + ([told['lifetime']] if told['lifetime'] else []))}"

    def type_qualified_path(self, told):
        of = f" as {self.path(told['trait'])}" if told.get("trait") else ""
        return f"<{self.type(told['self_type'])}{of}>::{told['name']}"

    def type_function_pointer(self, told):
        sig = told["sig"]
        return f"fn({', '.join(self.type(it) for _, it in sig['inputs'])}){self.result(sig['output'])}"

    def bounds(self, listed):
        return " + ".join(self.bound(it) for it in listed)

    def bound(self, it):
        if "trait_bound" in it:
            told = it["trait_bound"]
            return ("?" if told["modifier"] == "maybe" else "") + self.path(told["trait"])
        if "outlives" in it:
            return it["outlives"]
        return f"use<{', '.join(next(iter(arg.values())) for arg in it['use'])}>"

    def generics(self, told):
        """The parameters in brackets, and what is asked of them."""
        names, asked = [], []
        for it in told["params"]:
            (kind, own), = it["kind"].items()
            if kind == "type" and own.get("is_synthetic"):
                continue
            names.append(f"const {it['name']}: {self.type(own['type'])}" if kind == "const" else it["name"])
            bounds = " + ".join(own["outlives"]) if kind == "lifetime" else self.bounds(own.get("bounds") or [])
            asked += [f"{it['name']}: {bounds}"] if bounds else []
        for it in told["where_predicates"]:
            if "bound_predicate" in it:
                own = it["bound_predicate"]
                asked.append(f"{self.type(own['type'])}: {self.bounds(own['bounds'])}")
            elif "lifetime_predicate" in it:
                own = it["lifetime_predicate"]
                asked.append(f"{own['lifetime']}: {' + '.join(own['outlives'])}")
        return f"<{', '.join(names)}>" if names else "", f" where {', '.join(asked)}" if asked else ""

    # ---- Lines

    def lines(self):
        """All lines, sorted."""
        found = set()
        for path, item in self.public:
            (kind, told), = item["inner"].items()
            lister = getattr(self, f"list_{kind}", None)
            if lister is None:
                raise Failed(f"check/api_rust.py knows no {kind}: {path}")
            found.update(("deprecated " if item["deprecation"] else "") + line for line in lister(path, item, told))
        return sorted(found)

    def is_open(self, item):
        return any("non_exhaustive" in str(it) for it in item["attrs"])

    def list_module(self, path, _item, _told):
        yield f"mod {path}"

    def list_struct(self, path, item, told):
        names, asked = self.generics(told["generics"])
        kind, is_whole = told["kind"], not self.is_open(item)
        if kind == "unit":
            fields = []
        elif "tuple" in kind:
            fields, is_whole = kind["tuple"], is_whole and None not in kind["tuple"]
        else:
            fields, is_whole = kind["plain"]["fields"], is_whole and not kind["plain"]["has_stripped_fields"]
        yield f"{'exhaustive ' if is_whole else ''}struct {path}{names}{asked}"
        yield from self.fields(path, fields)
        yield from self.impls(path, told["impls"])

    def fields(self, path, keys):
        for key in keys:
            field = self.item(key) if key is not None else None
            if field is not None:
                yield f"field {path}::{field['name']}: {self.type(field['inner']['struct_field'])}"

    def list_enum(self, path, item, told):
        names, asked = self.generics(told["generics"])
        yield f"{'' if self.is_open(item) else 'exhaustive '}enum {path}{names}{asked}"
        variants = [self.item(key) for key in told["variants"]]
        yield from (self.variant(path, it) for it in variants if it)
        yield from self.impls(path, told["impls"])

    def variant(self, path, item):
        kind = item["inner"]["variant"]["kind"]
        name = f"variant {path}::{item['name']}"
        if kind == "plain":
            return name
        (form, told), = kind.items()
        keys = told if form == "tuple" else told["fields"]
        fields = [self.item(key) for key in keys if key is not None]
        types = [self.type(it["inner"]["struct_field"]) for it in fields]
        if form == "tuple":
            return f"{name}({', '.join(types)})"
        rest = ", .." if self.is_open(item) or told["has_stripped_fields"] else ""
        named = ", ".join(it["name"] + ": " + own for it, own in zip(fields, types))
        return f"{name} {{ {named}{rest} }}"

    def list_trait(self, path, _item, told):
        names, asked = self.generics(told["generics"])
        bounds = f": {self.bounds(told['bounds'])}" if told["bounds"] else ""
        yield f"{'unsafe ' if told['is_unsafe'] else ''}trait {path}{names}{bounds}{asked}"
        for key in told["items"]:
            item = self.item(key)
            if item is None:
                continue
            (kind, own), = item["inner"].items()
            if kind == "function":
                has = "provided" if own["has_body"] else "required"
                yield has + " " + self.function(path + "::" + item["name"], own)
            elif kind == "assoc_type":
                yield f"required type {path}::{item['name']}: {self.bounds(own['bounds'])}"
            else:
                yield f"{'provided' if own.get('value') else 'required'} const {path}::{item['name']}: {self.type(own['type'])}"
        # Of this crate's types these stand with the types.
        for key in told["implementations"]:
            item = self.item(key)
            if item is not None and not self.is_own(item["inner"]["impl"]["for"]):
                yield self.implemented(item["inner"]["impl"])

    def is_own(self, it):
        return "resolved_path" in it and it["resolved_path"]["id"] in self.paths

    def implemented(self, told):
        """Which trait a type has."""
        _, asked = self.generics(told["generics"])
        return f"impl {self.path(told['trait'])} for {self.type(told['for'])}{asked}"

    def list_function(self, path, _item, told):
        yield self.function(path, told)

    def function(self, path, told, asked=""):
        names, own = self.generics(told["generics"])
        inputs = [self.taken(name, it) for name, it in told["sig"]["inputs"]]
        header = told["header"]
        before = ("const " if header["is_const"] else "") + ("unsafe " if header["is_unsafe"] else "")
        asked = own + asked.replace(" where ", ", ") if own else asked
        return f"{before}fn {path}{names}({', '.join(inputs)}){self.result(told['sig']['output'])}{asked}"

    def taken(self, name, it):
        """What is taken of an argument: its type, and for self as it is written."""
        said = self.type(it)
        if name != "self":
            return said
        return {"Self": "self", "&Self": "&self", "&mut Self": "&mut self"}.get(said, f"self: {said}")

    def list_type_alias(self, path, _item, told):
        names, _ = self.generics(told["generics"])
        yield f"type {path}{names} = {self.type(told['type'])}"

    def list_constant(self, path, _item, told):
        own = told.get("const") or told
        yield f"const {path}: {self.type(told['type'])} = {own.get('value') or own['expr']}"

    def list_macro(self, path, _item, _told):
        yield f"macro {path}"

    def impls(self, path, keys):
        """The methods of a type, and its traits but those that each type has."""
        for key in keys:
            item = self.item(key)
            told = item["inner"]["impl"] if item else None
            if told is None or told["blanket_impl"] or told["is_negative"]:
                continue
            if told["trait"] is None:
                yield from self.methods(path, told, self.generics(told["generics"])[1])
            elif told["trait"]["path"].split("::")[-1] not in NOT_LISTED:
                yield self.implemented(told)
                yield from self.associated(path, told)

    def methods(self, path, told, asked):
        own = self.type(told["for"])
        special = own[own.find("<"):] if "<" in own and not re.fullmatch(r"[\w:]+<('?\w+(, )?)+>", own) else ""
        asked = asked + (f" of {special}" if special else "")
        for key in told["items"]:
            item = self.item(key)
            if item is None or item["visibility"] != "public":
                continue
            (kind, inner), = item["inner"].items()
            sign = "deprecated " if item["deprecation"] else ""
            if kind == "function":
                yield sign + self.function(path + "::" + item["name"], inner, asked)
            else:
                yield f"{sign}const {path}::{item['name']}: {self.type(inner['type'])} = {inner.get('value')}"

    def associated(self, path, told):
        """What an implementation says of a trait's types."""
        for key in told["items"]:
            item = self.item(key)
            if item is not None and "assoc_type" in item["inner"] and item["inner"]["assoc_type"]["type"]:
                yield (f"type {path}::{item['name']} of {self.path(told['trait'])} = "
                       f"{self.type(item['inner']['assoc_type']['type'])}")


def listed(folder):
    """All lines, sorted."""
    return Crate(said_by_rustdoc(folder)).lines()
