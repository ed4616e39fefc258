"""How pictures show the role of a server for a shard, and the outcome of a request. tools/picture draws scripts with
it, and tools/pictures the pictures of the pages. A class is a role or a mark."""

# Each class as it is in the light.
LIGHT = """\
.executes{fill:#2f5f8f;stroke:#1c3a57} .receives{fill:#a9cbe8;stroke:#1c3a57}
.forwards{fill:url(#hatch);stroke:#1c3a57} .prepared{fill:#fff;stroke:#1c3a57;stroke-dasharray:2 2}
.paused{fill:url(#dots);stroke:#1c3a57}
.unreached{fill:#b00020;fill-opacity:.12;stroke:#b00020;stroke-dasharray:4 2} .away{fill:url(#away)}
.hatched{stroke:#1c3a57} .grey{fill:#e4e4e4} .dot{fill:#333} .strokes{stroke:#ccc;fill:none}
.held{fill:#e0a100;stroke:#222;stroke-width:.6} .done{fill:#fff;stroke:#000;stroke-width:.9}
.base{fill:#6fae4a;stroke:#222;stroke-width:.8} .hop{stroke:#c05a00;stroke-width:1.5;fill:none}
.tip{fill:#c05a00} .halo{stroke:#fff;stroke-width:4;fill:none} .no{stroke:#b00020;stroke-width:1.8;fill:none}
.error{fill:#777}"""
# And in the dark, if it differs there.
DARK = """\
.executes{fill:#5b9bd5;stroke:#b9d8f2} .receives{fill:#27486b;stroke:#b9d8f2}
.forwards,.paused{stroke:#b9d8f2} .prepared{fill:#0d1117;stroke:#b9d8f2}
.unreached{fill:#ff7b86;stroke:#ff7b86} .hatched{stroke:#b9d8f2} .grey{fill:#30363d} .dot{fill:#ccc}
.strokes{stroke:#484f58} .held,.base{stroke:#000} .hop{stroke:#f0904a} .tip{fill:#f0904a}
.halo{stroke:#0d1117} .no{stroke:#ff7b86} .error{fill:#aaa}"""
PATTERNS = """<defs>
<pattern id="hatch" width="5" height="5" patternUnits="userSpaceOnUse">
<rect class="paper" width="5" height="5"/><path class="hatched" d="M-1,1L1,-1M0,5L5,0M4,6L6,4"/></pattern>
<pattern id="dots" width="4" height="4" patternUnits="userSpaceOnUse">
<rect class="grey" width="4" height="4"/><circle class="dot" cx="2" cy="2" r=".8"/></pattern>
<pattern id="away" width="8" height="8" patternUnits="userSpaceOnUse">
<path class="strokes" d="M0,8L8,0M0,0L8,8"/></pattern>
</defs>"""
