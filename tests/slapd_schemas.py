"""Rows for `tools/slapd_schema`: what a file has, what is printed for it, and what is said. The sentences tell what each row shows; descriptions are made up for it, except those that begin as those of slapd,
sudo or autofs do. The types that slapd has built in, which come first each time, are left out of what is wanted."""
from __future__ import annotations

import glob
import os
import subprocess

from replicas import TOP, program

TOOL = os.path.join(TOP, "tools", "slapd_schema")
S = "1.3.6.1.4.1.1466.115.121.1."
# How many lines the built-in types and classes take.
BUILT_IN = 12
# Where Debian's slapd, sudo-ldap and autofs-ldap have their schemas, if they are installed.
INSTALLED = ("/etc/ldap/schema/*.schema", "/etc/ldap/schema/*.ldif", "/usr/share/doc/sudo-ldap/schema.*")

# Each row: a sentence; the name of the file and its text; lines of the schema; pieces of lines on standard error; the status.
ROWS: list[tuple[str, str, str, list[str], list[str], int]] = [
    ("fields come in any order and are put into the grammar's; white space and lines are free",
     "a.schema", f"attributetype ( 2.25.1\n\tSINGLE-VALUE\n\tSYNTAX {S}15{{64}}\n\tSUBSTR caseIgnoreSubstringsMatch EQUALITY caseIgnoreMatch\n\tDESC 'a text' NAME ( 'one' 'uno' ) )\n",
     [f"attributeTypes: ( 2.25.1 NAME ( 'one' 'uno' ) DESC 'a text' EQUALITY caseIgnoreMatch SUBSTR caseIgnoreSubstringsMatch SYNTAX {S}15{{64}} SINGLE-VALUE )"],
     ["1 types and 0 classes written, 0 of them changed; 0 left out"], 0),
    ("a class with its kind behind SUP and its text behind the kind, as sudo's",
     "a.schema", "objectclass ( 2.25.2 NAME 'role' SUP top STRUCTURAL\n    DESC 'Entries'\n    MUST ( cn )\n    MAY ( uid $\n          description )\n    )\n",
     ["objectClasses: ( 2.25.2 NAME 'role' DESC 'Entries' SUP top STRUCTURAL MUST cn MAY ( uid $ description ) )"], [], 0),
    ("an empty DESC, a quoted SUP, a quoted syntax",
     "a.schema", f"attributetype ( 2.25.1 NAME 'one' DESC '' SUP 'name' )\nattributetype ( 2.25.3 NAME 'two' SYNTAX '{S}12' EQUALITY distinguishedNameMatch )\n",
     ["attributeTypes: ( 2.25.1 NAME 'one' SUP name )", f"attributeTypes: ( 2.25.3 NAME 'two' EQUALITY distinguishedNameMatch SYNTAX {S}12 )"], [], 0),
    ("names for object identifiers, of types, classes and syntaxes, one defined by another, in any case",
     "a.schema", f"objectIdentifier Root 2.25.7\nobjectidentifier Types\tROOT:1\nobjectidentifier Text {S}15\nattributetype ( types:4.5 NAME 'one' EQUALITY caseExactMatch SYNTAX Text )\nobjectclass ( Root:2 NAME 'c' AUXILIARY MAY one )\n",
     [f"attributeTypes: ( 2.25.7.1.4.5 NAME 'one' EQUALITY caseExactMatch SYNTAX {S}15 )", "objectClasses: ( 2.25.7.2 NAME 'c' AUXILIARY MAY one )"], [], 0),
    ("a name for an object identifier that nothing defines",
     "a.schema", f"attributetype ( Nowhere:1 NAME 'one' SYNTAX {S}15 )\nattributetype ( 2.25.1 NAME 'two' SUP name )\n",
     ["attributeTypes: ( 2.25.1 NAME 'two' SUP name )"], ["a.schema line 1: one: left out: Nowhere:1 is no object identifier, and no objectIdentifier line defines it"], 0),
    ("a syntax of its own is the one that stands for it",
     "a.schema", f"ldapsyntax ( 2.25.9.1 DESC 'x' X-SUBST '{S}15' )\nattributetype ( 2.25.1 NAME 'one' EQUALITY caseIgnoreMatch SYNTAX 2.25.9.1 )\n",
     [f"attributeTypes: ( 2.25.1 NAME 'one' EQUALITY caseIgnoreMatch SYNTAX {S}15 )"], ["a.schema line 2: one: changed: syntax"], 0),
    ("collective and operational types are left out, and so is what builds on them",
     "a.schema", f"attributetype ( 2.25.1 NAME 'c-one' SUP name COLLECTIVE )\nattributetype ( 2.25.2 NAME 'under' SUP c-one )\nattributetype ( 2.25.3 NAME 'op' SYNTAX {S}27 USAGE directoryOperation )\n"
     f"attributetype ( 2.25.4 NAME 'kept' SYNTAX {S}27 NO-USER-MODIFICATION )\nobjectclass ( 2.25.5 NAME 'c' MUST cn MAY ( op $ uid ) )\nobjectclass ( 2.25.6 NAME 'd' MUST c-one )\nobjectclass ( 2.25.7 NAME 'e' SUP d )\n",
     ["objectClasses: ( 2.25.5 NAME 'c' STRUCTURAL MUST cn MAY uid )"],
     ["c-one: left out: a collective attribute: dird has none", "under: left out: its SUP c-one isn't in these files", "op: left out: USAGE directoryOperation", "kept: left out: NO-USER-MODIFICATION",
      "c: changed: without MAY op", "d: left out: its MUST c-one", "e: left out: its SUP d", "0 types and 1 classes written, 1 of them changed; 6 left out"], 0),
    ("a rule that dird lacks takes the nearest one; a family without substrings takes the one that compares ASCII alike",
     "a.schema", f"attributetype ( 2.25.1 NAME 'one' EQUALITY caseExactIA5Match SUBSTR caseExactIA5SubstringsMatch SYNTAX {S}26 )\nattributetype ( 2.25.2 NAME 'two' EQUALITY caseIgnoreListMatch SUBSTR caseIgnoreListSubstringsMatch SYNTAX {S}41 )\n"
     f"attributetype ( 2.25.3 NAME 'three' EQUALITY integerMatch SUBSTR caseIgnoreSubstringsMatch SYNTAX {S}27 )\n",
     [f"attributeTypes: ( 2.25.1 NAME 'one' EQUALITY caseExactMatch SUBSTR caseExactSubstringsMatch SYNTAX {S}26 )",
      f"attributeTypes: ( 2.25.2 NAME 'two' EQUALITY caseIgnoreMatch SUBSTR caseIgnoreSubstringsMatch SYNTAX {S}15 )",
      f"attributeTypes: ( 2.25.3 NAME 'three' EQUALITY integerMatch SYNTAX {S}27 )"],
     ["one: changed: caseExactMatch for caseExactIA5Match; caseExactSubstringsMatch for caseExactIA5SubstringsMatch", "two: changed: syntax Postal Address (41) as Directory String (15)",
      "three: changed: without SUBSTR caseIgnoreSubstringsMatch"], 0),
    ("a rule that isn't used on its syntax, and a type without a rule",
     "a.schema", f"attributetype ( 2.25.1 NAME 'one' EQUALITY caseIgnoreIA5Match SYNTAX {S}15 )\nattributetype ( 2.25.2 NAME 'two' SYNTAX {S}27 )\nattributetype ( 2.25.3 NAME 'three' SYNTAX {S}28 )\n",
     [f"attributeTypes: ( 2.25.1 NAME 'one' EQUALITY caseIgnoreMatch SYNTAX {S}15 )", f"attributeTypes: ( 2.25.2 NAME 'two' EQUALITY integerMatch SYNTAX {S}27 )",
      f"attributeTypes: ( 2.25.3 NAME 'three' EQUALITY octetStringMatch SYNTAX {S}40 )"],
     ["one: changed: caseIgnoreMatch for caseIgnoreIA5Match", "two: changed: integerMatch, as it has no EQUALITY", "three: changed: syntax JPEG (28) as Octet String (40); octetStringMatch, as it has no EQUALITY"], 0),
    ("a type may come before its SUP; a loop, a missing SUP, one described twice",
     "a.schema", "attributetype ( 2.25.1 NAME 'one' SUP two )\nattributetype ( 2.25.2 NAME 'two' SUP name )\nattributetype ( 2.25.3 NAME 'x' SUP y )\nattributetype ( 2.25.4 NAME 'y' SUP x )\n"
     "attributetype ( 2.25.5 NAME 'z' SUP nothing )\nattributetype ( 2.25.6 NAME ( 'three' 'two' ) SUP name )\nattributetype ( 2.25.7 NAME 'TWO' SUP name )\nattributetype ( 2.25.2 NAME 'two' SUP name )\n",
     ["attributeTypes: ( 2.25.1 NAME 'one' SUP two )", "attributeTypes: ( 2.25.2 NAME 'two' SUP name )", "attributeTypes: ( 2.25.6 NAME 'three' SUP name )"],
     ["x: left out: a chain of SUPs leads back to itself", "y: left out: a chain of SUPs", "z: left out: its SUP nothing isn't in these files", "three: changed: without the name two",
      "TWO: left out: its name TWO is that of a.schema line 2"], 0),
    ("a class with the name of a type, one with its object identifier; a name that is none",
     "a.schema", "attributetype ( 2.25.1 NAME 'one' DESC 'caf\u00e9' SUP name )\nobjectclass ( 2.25.2 NAME 'ONE' MAY one )\nobjectclass ( 2.25.1 NAME 'two' MAY one )\nattributetype ( 2.25.3 NAME ( 'a_b' 'ab' ) SUP name )\n",
     ["attributeTypes: ( 2.25.1 NAME 'one' DESC 'caf\u00e9' SUP name )", "attributeTypes: ( 2.25.3 NAME 'ab' SUP name )"],
     ["ONE: left out: its name ONE is that of a.schema line 1", "two: left out: 2.25.1 is one of a.schema line 1", "ab: changed: without the name a_b is no name by RFC 4512"], 0),
    ("comments end nothing inside a description, and go on over lines that are indented; an unknown keyword is told",
     "a.schema", "# a comment\n  that goes on\nattributetype ( 2.25.1 NAME 'one'\n# between\n  SUP name )\nattributeype ( 2.25.2 NAME 'two' SUP name )\nattributetype ( 2.25.3 NAME 'three' SUP name NOSUCH x )\n",
     ["attributeTypes: ( 2.25.1 NAME 'one' SUP name )"], ["a.schema line 6: attributeype: left out: no keyword of a schema file", "a.schema line 7: three: left out: no field is called NOSUCH"], 0),
    ("LDIF of cn=config: a line that is folded inside a word, an order in braces, comments between, base64",
     "a.ldif", "dn: cn=a,cn=schema,cn=config\nobjectClass: olcSchemaConfig\ncn: a\nolcObjectIdentifier: Root 2.25.7\n# a comment\nolcAttributeTypes: {0}( Root:1 NAME 'one' SUP na\n me )\n#\nolcattributetypes: ( 2.25.2\n    NAME 'two'\n"
     "    SUP name )\nolcObjectClasses:: KCAyLjI1LjMgTkFNRSAnYycgU1VQIHRvcCBBVVhJTElBUlkgTUFZIG9uZSAp\n",
     ["attributeTypes: ( 2.25.7.1 NAME 'one' SUP name )", "attributeTypes: ( 2.25.2 NAME 'two' SUP name )", "objectClasses: ( 2.25.3 NAME 'c' SUP top AUXILIARY MAY one )"], [], 0),
    ("LDIF of a subschema, with X- fields",
     "a.ldif", "dn: cn=schema\nattributeTypes: ( 2.25.2 NAME 'two' SUP name X-ORIGIN ( 'a' 'b' ) X-NOT 'c' )\n", ["attributeTypes: ( 2.25.2 NAME 'two' SUP name )"], [], 0),
    ("the form of Active Directory", "a.ldif", "dn: CN=x,CN=Schema,CN=Configuration,DC=X\nchangetype: add\nobjectClass: attributeSchema\nattributeID: 2.25.1\n", [], ["a.ldif: an LDIF in the form of Active Directory"], 1),
    ("a text without descriptions", "a.schema", "nothing here\n", [], ["a.schema: no attribute type and no object class is described there"], 1),
]


def converted(*files: str, folder: str = ".") -> subprocess.CompletedProcess:
    """What the tool prints."""
    return subprocess.run([TOOL, *files], cwd=folder, stdout=subprocess.PIPE, stderr=subprocess.PIPE, text=True, timeout=60)


def accepts(schema: str, folder: str) -> None:
    """The program takes a schema."""
    for name, text in (("made.schema", schema), ("none.ldif", "version: 1\n")):
        with open(os.path.join(folder, name), "w", encoding="utf-8") as file:
            file.write(text)
    checked = subprocess.run([program(), "check", "--schema", "made.schema", "--suffix", "cn=x", "none.ldif"], cwd=folder, stdout=subprocess.PIPE, stderr=subprocess.PIPE, text=True, timeout=300)
    assert checked.returncode == 0 and checked.stdout.endswith("0 records, 0 refused\n"), checked


def schemas_of_slapd_are_read(folder: str) -> None:
    """Each row is printed as it has it, and the program takes it."""
    for sentence, name, text, lines, told, status in ROWS:
        with open(os.path.join(folder, name), "w", encoding="utf-8") as file:
            file.write(text)
        run = converted(name, folder=folder)
        assert run.stdout.splitlines()[BUILT_IN:] == lines, (sentence, run.stdout, run.stderr)
        assert run.returncode == status, (sentence, run)
        for piece in told:
            assert piece in run.stderr, (sentence, piece, run.stderr)
        accepts(run.stdout, folder)
    shown = converted("--help")
    assert shown.returncode == 0 and "FILE" in shown.stdout and shown.stderr == "", shown
    assert converted().returncode == 2
    missing = converted("none.schema", folder=folder)
    assert missing.returncode == 1 and "none.schema: No such file or directory" in missing.stderr, missing


def schemas_that_are_installed_are_read(folder: str) -> None:
    """Those of Debian's slapd, sudo-ldap and autofs-ldap, each with the ones that it builds on, where they are installed."""
    found = sorted(path for pattern in INSTALLED for path in glob.glob(pattern))
    below = [path for name in ("core", "cosine", "inetorgperson", "nis") for path in found if path.endswith(f"/{name}.schema")]
    if len(below) < 4:
        print("left out: no schemas of slapd are installed")
        return
    for path in found:
        if "ActiveDirectory" in path:
            continue
        run = converted(*below, *([path] if path not in below else []))
        assert run.returncode == 0, (path, run.stderr)
        accepts(run.stdout, folder)
