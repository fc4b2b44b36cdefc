"""Reading of what items are made of: what stands before them, fields, variants, paths and clauses."""
from items import Clause, Part
from tokens import Cursor


class PartReader(Cursor):
    """Reads parts of items."""

    def docs_and_attributes(self):
        """What stands before an item, or before a field."""
        docs, attributes = [], []
        while self.kind() == "doc" or self.word() == "#":
            if self.kind() == "doc":
                docs += self.lines_of("doc")
            else:
                attributes.append(self.attribute())
        return docs, attributes

    def visibility(self):
        """Whether `pub` stands here, and for all."""
        if self.word() != "pub":
            return False
        self.take()
        if self.word() == "(":
            self.pair()
            return False
        return True

    def fields(self, all_public=False):
        """The public fields between braces, and whether there are others."""
        shown, hidden = [], False
        self.take("{")
        while self.word() != "}":
            docs, _ = self.docs_and_attributes()
            begin, public = self.offset(), self.visibility() or all_public
            self.take_if("ghost")
            name = self.take()
            self.take(":")
            self.field_rest()
            if public:
                shown.append(Part(name, self.source(begin), docs))
            hidden = hidden or not public
            self.take_if(",")
        self.take("}")
        return shown, hidden

    def field_rest(self):
        """Goes past a type or a value, up to the comma or the bracket behind it."""
        while self.word() not in (",", "}", ")"):
            if self.kind() == "end":
                self.fail("a field isn't ended")
            if self.word() == "<":
                self.generics()
            else:
                self.skip()

    def tuple_fields(self):
        """The fields of a struct between round brackets; those that aren't public as `_`."""
        texts = []
        self.take("(")
        while self.word() != ")":
            self.lines_of("doc")
            begin, public = self.offset(), self.visibility()
            self.field_rest()
            texts.append(self.source(begin) if public else "_")
            self.take_if(",")
        self.take(")")
        return texts

    def variant(self):
        docs, _ = self.docs_and_attributes()
        begin, name, fields = self.offset(), self.take(), []
        text = name
        if self.word() == "{":
            fields, _ = self.fields(all_public=True)
            text = name + " { " + ", ".join(field.text for field in fields) + " }"
        else:
            self.field_rest()
            text = self.source(begin)
        self.take_if(",")
        return Part(name, text, docs, [field for field in fields if field.docs])

    def path_names(self):
        """The names of a path, as of `fmt::Display` or `Table<Endpoint>`, without what is between < and >."""
        names = []
        while self.word() not in ("for", "{", "where"):
            if self.kind() == "end":
                self.fail("an impl has no body")
            if self.word() == "<":
                self.generics()
            else:
                if self.kind() == "word":
                    names.append(self.word())
                self.skip()
        return names

    def clause(self):
        keyword, name = self.take("requires", "ensures"), None
        if self.word() == "*":
            keyword += self.take()
        if self.kind() == "word":
            name = self.take()
        if self.word() != "{":
            self.fail("a clause has no brace")
        begin = self.offset() + 1
        self.pair()
        return Clause(keyword, name, self.source(begin, self.last_end() - 1))
