"""Sections for the command and its page: large ones, and ones with a supplier's bytes that try to be more than text."""
import os
import sys

TOP = os.path.dirname(os.path.dirname(os.path.dirname(os.path.abspath(__file__))))
sys.path.append(os.path.join(TOP, "tools", "replay"))
from sections import JOIN, NEG, OP, POS, Section, chain, shapes, text, wide

HOSTILE = [
    "<script>document.title = 'taken'</script>",
    "</script><img src=x onerror=\"document.title = 'taken'\">",
    "<!--<script>",
    "]]>{section}{script}&lt;b&gt;&#60;",
    "'\"`;document.title='taken'//",
    "\\u003cscript\\u003e",
    "right \u202eot tfel\u202c, isolates \u2066a\u2069, marks \u200e\u200f\u061c",
    "ends \u2028 \u2029 \ufeff \u200b \u00ad \U000e0041 \U0001f600",
    "\u05e9\u05dc\u05d5\u05dd and \u0627\u0644\u0633\u062c\u0644",
    "Z\u0351\u036b\u0343\u036a\u0302" * 40,
    "long " + "x" * 4091,
    "javascript:document.title='taken'",
]


def hostile():
    """Each of them is a kind, the policy and the issuer among them, with a positive proof and an operation on it."""
    s = Section()
    s.policy, s.issuer = text(HOSTILE[1].encode()), text(HOSTILE[6].encode())
    for number, kind in enumerate(sorted(kind.encode() for kind in HOSTILE)):
        s.proposition(kind)
        s.proof(OP, (s.proof(POS, (), number),), number)
    return s


def grouped(groups, layers=0, wide=20):
    """Propositions of four proofs each: on a positive and a negative witness, their join, an operation. Then, for one more, joins in layers,
    each of two neighbours of the layer before."""
    s = Section()
    for number in range(groups):
        s.proposition(b"entry %05d" % number, number, number % 7, 1)
        first, second = s.proof(POS, (), number), s.proof((NEG, POS)[number % 3 == 0], (), number)
        s.proof(OP, (s.proof(JOIN, (first, second), number),), number)
    if layers:
        s.proposition(b"joins upon joins")
        last = [s.proof((POS, NEG)[at % 5 == 0], (), groups) for at in range(wide)]
        for _ in range(layers):
            last = [s.proof(JOIN, sorted((last[at], last[(at + 1) % wide])), groups) for at in range(wide)]
        s.proof(OP, last[:1], groups)
    return s


def long_scans():
    """Schema 2, with spans around 2^32, around 2^53, up to which a 64-bit float holds every number, and at the end."""
    s = wide(Section().proposition(b"k"))
    for span in ((0, 2**32 - 1), (2**32, 2**32 + 1), (2**53 - 1, 2**53), (2**53 + 1, 2**63), (2**64 - 2, 2**64 - 1)):
        s.proof(POS)
        s.witnesses[-1].update(start=span[0], end=span[1])
    return s


def forty_thousand():
    """40,001 proofs, 4,000 of them in 200 layers."""
    s = grouped(9000, 199)
    assert len(s.proofs) == 40001
    return s
