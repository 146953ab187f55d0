"""The page of marks that `tools/mark` writes: the table of a class, and why something isn't right."""

from html import escape

STYLE = """
body { font: 16px/1.45 "Noto Sans", "DejaVu Sans", Helvetica, Arial, sans-serif; color: #1a1a1a; margin: 24px; }
h1 { font-size: 22px; margin: 0 0 12px; }
h2 { font-size: 18px; margin: 28px 0 8px; }
table { border-collapse: collapse; }
th, td { border: 1px solid #cfcfcf; padding: 4px 10px; text-align: center; }
th.name, td.name, td.why { text-align: left; }
th { background: #f1f3f5; }
.yes { background: #dff2e6; color: #00553f; }
.no { background: #fbe0dc; color: #8d1a12; font-weight: 600; }
.missing { color: #6b6b6b; }
code { font-size: 15px; }
td.why { font-family: "DejaVu Sans Mono", monospace; font-size: 14px; overflow-wrap: anywhere; }
"""
CLASSES = {"yes": "yes", "no": "no", "-": "missing"}


def cell(words, kind="", name="td", title=""):
    settings = "".join(f' {key}="{escape(value)}"' for key, value in (("class", kind), ("title", title)) if value)
    return f"<{name}{settings}>{words}</{name}>"


def row(cells):
    return f"<tr>{''.join(cells)}</tr>"


def table(rows):
    return "<table>\n" + "\n".join(rows) + "\n</table>"


def page_of(title, lines, marks):
    """A page without scripts. What students wrote stands there as text alone."""
    expected = table(row([cell(str(number), name="th"), cell(f"<code>{escape(line.text)}</code>", "name")])
                     for number, line in enumerate(lines, 1))
    return f"""<!DOCTYPE html>
<html lang="en">
<head>
<meta charset="utf-8">
<meta http-equiv="Content-Security-Policy" content="default-src 'none'; style-src 'unsafe-inline'">
<title>Marks: {escape(title)}</title>
<style>{STYLE}</style>
</head>
<body>
<h1>Marks: {escape(title)}</h1>
{marks_table(lines, marks)}
<h2>What was expected</h2>
{expected}
<h2>What isn't right</h2>
{reasons_table(marks)}
</body>
</html>
"""


def marks_table(lines, marks):
    heads = [cell("student", "name", "th")]
    heads += [cell(str(number), name="th", title=line.text) for number, line in enumerate(lines, 1)]
    rows = [row([*heads, cell("right", name="th")])]
    for student, found in marks.items():
        cells = [cell(each.word, CLASSES[each.word], title=each.reason) for each in found]
        count = sum(each.word == "yes" for each in found)
        rows.append(row([cell(escape(student), "name"), *cells, cell(f"{count} of {len(lines)}")]))
    return table(rows)


def reasons_table(marks):
    rows = [row([cell(escape(student), "name"), cell(str(number)), cell(escape(each.reason), "why")])
            for student, found in marks.items() for number, each in enumerate(found, 1) if each.word == "no"]
    return table(rows) if rows else "<p>Nothing.</p>"
