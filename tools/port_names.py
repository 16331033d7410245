#!/usr/bin/env python3
"""Respells this repository's own definitions, fields and lemmas, after the kit's script turned the rest.

usage: python3 tools/port_names.py      at the top, once, with everything committed

- A word of specs/ and proofs/ in lower camel case is written in snake case (`vertexCount` is `vertex_count`), in clauses and
  in the pages of docs/ too. Where a lemma had that spelling already, the lemma gets the ending `_lem`.
- The definition `result` is `result_of`, since `result` is what a function returns; then a clause that kept its λ for that reason
  loses it: `ensures* { λ r. ⌜ P ⌝ }` is `ensures { P }`, with `result` for `r`.
- A type that holds numbers alone is `Copy`, as it was: `#[derive(Drop)]` is `#[derive(Clone, Copy)]` on a type without a lifetime.
"""
import glob
import re

CAMEL = re.compile(r"(?<![\w'])[a-z][a-z0-9]*(?:[A-Z][a-z0-9]*)+(?![A-Z])(?=[\w'\-]*)")
NAME = re.compile(r"(?<![\w'])[a-z][\w']*")
LEMMAS = ("too_few listed_in no_step one_more record_of by_number some_of is_same step_words step_back on_some on_room word_count "
          "row_count too_many word_read count_fits no_room word_on has_end number_fits comes_back all_live is_cut is_word").split()


def snake(word):
    return re.sub(r"(?<=[a-z0-9])[A-Z]", lambda m: "_" + m.group(0).lower(), word)


def own_words(texts):
    """The words in lower camel case, `getD` and the like aside, which are the library's."""
    words = set()
    for t in texts:
        words |= set(re.findall(r"(?<![\w'])[a-z][a-z0-9]*(?:[A-Z][a-z0-9]+)+(?![A-Za-z0-9_])", t))
    return words


def respell(text, words, lemmas, answers):
    if lemmas:
        text = re.sub(r"(?<![\w'.])(" + "|".join(LEMMAS) + r")(?![\w'\-])", r"\1_lem", text)
    text = re.sub(r"(?<![\w'])[a-z][a-z0-9]*(?:[A-Z][a-z0-9]+)+(?![A-Za-z0-9_])", lambda m: snake(m.group(0)) if m.group(0) in words else m.group(0), text)
    return re.sub(r"(?<![\w'.\-])result(?![\w'\-])", "result_of", text) if answers else text


def names_result(text):
    """Whether the file's clauses or laws speak of the definition `result` of an answer."""
    return re.search(r"(?m)^(ghost )?use Rattle\.layout\.specs\.Answers\.\{[^}]*\bresult\b|^abbrev pub result :", text) is not None


def braces(text, at):
    """The place after the brace that closes the one at `at`."""
    depth = 0
    for i in range(at, len(text)):
        depth += (text[i] == "{") - (text[i] == "}")
        if depth == 0:
            return i + 1
    raise SystemExit("a brace is not closed")


def without_lambda(text):
    out, at = [], 0
    for m in re.finditer(r"ensures\* (\w+ )?\{ λ (\w+)\. ⌜ ", text):
        if m.start() < at:
            continue
        end = braces(text, text.index("{", m.start()))
        body = text[m.end():end]
        if not body.endswith(" ⌝ }") or "⌜" in body or "∗" in body:
            continue
        body = body[:-4]
        if m.group(2) != "_":
            body = re.sub(r"(?<![\w'.])" + m.group(2) + r"(?![\w'\-])", "result", body)
        out += [text[at:m.start()], "ensures ", m.group(1) or "", "{ ", body, " }"]
        at = end
    return "".join(out) + text[at:]


def clauses_respelled(text, words, answers):
    """Clauses and ghost lines alone: the rest of a source file keeps its names."""
    out, at = [], 0
    for m in re.finditer(r"(?m)^ghost use [^;]*;|\b(?:requires|ensures)\*? (?:\w+ )?(?=\{)|\bghost\b[^;{]*(?=\{)", text):
        if m.start() < at:
            continue
        end = m.end() if m.group(0).endswith(";") else braces(text, m.end())
        out += [text[at:m.start()], respell(text[m.start():end], words, True, answers)]
        at = end
    return "".join(out) + text[at:]


def main():
    files = sorted(glob.glob("crates/**/*.antt", recursive=True))
    files = [f for f in files if "/out/" not in f]
    sources = [f for f in sorted(glob.glob("crates/**/*.rt", recursive=True)) if "/out/" not in f]
    texts = {f: open(f, encoding="utf-8").read() for f in files + sources}
    words = own_words(texts[f] for f in files)
    together = {}
    for w in words:
        together.setdefault(snake(w), []).append(w)
    for s, ws in together.items():
        if len(ws) > 1:
            print("fall together:", s, ws)
    for f in files:
        new = respell(texts[f], words, True, names_result(texts[f]))
        if new != texts[f]:
            open(f, "w", encoding="utf-8").write(new)
    for f in sources:
        new = re.sub(r"#\[derive\(Drop\)\](?=\n(?:pub )?(?:struct|enum) \w+\b(?!<))", "#[derive(Clone, Copy)]", texts[f])
        new = without_lambda(clauses_respelled(new, words, names_result(texts[f])))
        if new != texts[f]:
            open(f, "w", encoding="utf-8").write(new)
        if "λ r. ⌜" in new or "λ _. ⌜" in new:
            print("left:", f)
    for f in ["README.md", "CONTRIBUTING.md"] + sorted(glob.glob("docs/**/*.md", recursive=True)):
        text = open(f, encoding="utf-8").read()
        new = re.sub(r"`[^`\n]*`", lambda m: respell(m.group(0), words, True, False) if "::" not in m.group(0) else m.group(0), text)
        if new != text:
            open(f, "w", encoding="utf-8").write(new)
    print(len(words), "words")


if __name__ == "__main__":
    main()
