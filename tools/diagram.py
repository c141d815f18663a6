"""The picture of a log as SVG text, the independent counterpart of the crates `text_diagram` and below.

A record is (kind, thread, object, field, value), kinds from 1; an arrow is a pair of indices; a race is the pair of its last write and its access, or None.
"""

KINDS = "- new read write readv writev acquire release fork join lacks-read lacks-write".split()

HEAD = """ font-family="monospace" font-size="12">
<style>.lane{stroke:#999;stroke-width:2}.row{stroke:#bbb;stroke-dasharray:1 5}.title{text-anchor:middle}</style>
<style>.arrow{stroke:#05c;stroke-width:1.5;marker-end:url(#tip)}.race{stroke:red;stroke-width:2;stroke-dasharray:6 4}</style>
<marker id="tip" viewBox="0 0 10 8" refX="15" refY="4" markerWidth="10" markerHeight="8" markerUnits="userSpaceOnUse" orient="auto">
<path d="M0 0L10 4L0 8z" fill="#05c"/></marker>
<rect width="100%" height="100%" fill="white"/>
"""


def lane_x(thread):
    return 40 + 80 * thread


def row_y(index):
    return 48 + 24 * index


def segment(name, x1, y1, x2, y2):
    return f'<line class="{name}" x1="{x1}" y1="{y1}" x2="{x2}" y2="{y2}"/>\n'


def diagram(log, arrows, race):
    lanes = max((record[1] + 1 for record in log), default=0)
    words_x, bottom = lane_x(lanes), row_y(len(log))

    def between(name, first, second):
        return segment(name, lane_x(log[first][1]), row_y(first), lane_x(log[second][1]), row_y(second))

    text = f'<svg xmlns="http://www.w3.org/2000/svg" width="{words_x + 280}" height="{bottom}"' + HEAD
    text += f'<text x="{words_x}" y="20">index kind thread object field value</text>\n'
    for thread in range(lanes):
        text += segment("lane", lane_x(thread), 28, lane_x(thread), bottom)
        text += f'<text class="title" x="{lane_x(thread)}" y="20">thread {thread}</text>\n'
    for index, (kind, thread, object_, field, value) in enumerate(log):
        text += f'<g fill="{"red" if race and index in race else "black"}">\n'
        text += segment("row", lane_x(thread), row_y(index), words_x, row_y(index))
        text += f'<circle r="5" cx="{lane_x(thread)}" cy="{row_y(index)}"/>\n'
        text += f'<text x="{words_x}" y="{row_y(index) + 4}">{index} {KINDS[kind]} {thread} {object_} {field} {value}\n</text></g>\n'
    for first, second in arrows:
        text += between("arrow", first, second)
    if race:
        text += between("race", *race)
    return (text + "</svg>\n").encode()
