//! What machines read: JSON a line, JUnit, SARIF and GitHub's commands, each held to a parser and to the totals.
use super::*;
use std::ffi::OsStr;
use std::os::unix::ffi::OsStrExt;

/// A file of each verdict, a name that is no UTF-8, a name with what XML and commands escape, and local names out of order.
fn samples(name: &str) -> String {
    let folder = folder(name);
    file(&folder, "a.golden", b"N");
    file(&folder, "b.golden", &code(2, 10, &[0xE8, 0x02, 0xF8]));
    file(&folder, "c,<&\">%.golden", &code(2, 10, &[0xE8, 0x02]));
    fs::write(folder.join(OsStr::from_bytes(b"d\xFF.golden")), [&guarded(&[0x04])[..], b"?"].concat()).unwrap();
    std::os::unix::fs::symlink("nowhere", folder.join("e.golden")).unwrap();
    let order = b"c\0\0\0\0\0\0\0\0\0\0\0\0\0\0\0\0\0\0\0\0s\0\0\0\0)\0)\0)\x02z\x01az\x01as\x02\0\0\0\x20\x40\
                  z\0z\0z\x01f\x01\0\0\0s\0\0\0\0s\0\0\0\0";
    file(&folder, "f.golden", order);
    folder.to_str().unwrap().to_string()
}

/// What a format has of the samples, strictly looked at.
fn printed(name: &str, format: &str) -> String {
    let folder = samples(name);
    let (status, shown, _) = ended(&["check", "--strict", format, &folder]);
    assert_eq!(status, 2);
    shown.replace(&format!("{folder}/"), "")
}

const TOTALS: &str = "{'files': 5, 'accepted': 2, 'no-place': 1, 'not-whole': 1, 'refused': 1, 'trouble': 1}";

#[test]
fn json_lines() {
    let shown = printed("format-json", "--json");
    assert_eq!(shown.lines().count(), 7);
    let script = "import json, sys\nlines = [json.loads(line) for line in sys.stdin]\n\
                  for line in lines[:-1]: print(line['path'], line['verdict'], [f['kind'] for f in line.get('findings', [])])\n\
                  print(lines[-1]['totals'])\nprint(lines[3]['path_bytes'][-18:], lines[4]['error'])";
    let told = "a.golden accepted []\nb.golden no-place ['no-place', 'not-sure']\nc,<&\">%.golden not-whole \
                ['not-whole', 'no-place', 'not-sure']\nd\u{FFFD}.golden refused ['no-place', 'not-sure', 'exception-table', \
                'value']\ne.golden trouble []\nf.golden accepted ['name-order']\n";
    let rest = "64ff2e676f6c64656e No such file or directory\n";
    assert_eq!(python(script, shown.as_bytes()), format!("{told}{TOTALS}\n{rest}"));
    if let Some(told) = jq("select(.verdict == \"refused\") | .findings[-1].number", shown.as_bytes()) {
        assert_eq!(told, "3\n");
    }
}

/// Every field that is promised of a finding.
#[test]
fn a_finding_in_json() {
    let path = file(
        &folder("finding"),
        "x",
        &[b"N", &code(4, 10, &[0xE9, 2, 0xE8, 0x40, 0x40, 0x40, 0x40, 0x40, 0x3F])[..]].concat(),
    );
    let (_, shown, _) = ended(&["check", "--format=json", &path]);
    let script = "import json, sys\n[f] = json.loads(sys.stdin.readline())['findings']\nprint([f[k] for k in ('kind', 'number', \
                  'name', 'byte', 'code_object', 'code_byte', 'file', 'first_line', 'instructions', 'placed', 'last_row')])\n\
                  print(f['text'].startswith('line table of code object total: 18 NumberRange at byte 81: '), f['meaning'] in f['text'])";
    let told = "['line-table', 18, 'NumberRange', 81, 'total', 2, 'rates.py', 10, 4, 2, 11]\nTrue True\n";
    assert_eq!(python(script, shown.as_bytes()), told);
}

/// Every kind has just the fields that the page of help lists.
#[test]
fn fields_of_each_kind() {
    let shown = printed("format-kinds", "--json");
    let script = "import json, sys\nlines = [json.loads(line) for line in sys.stdin]\n\
                  common = {'kind', 'number', 'name', 'byte', 'meaning', 'code_object', 'code_byte', 'file', 'first_line', \
                  'instructions', 'last_row', 'text'}\n\
                  assert all(common <= set(f) for line in lines for f in line.get('findings', []))\n\
                  own = {f['kind']: sorted(set(f) - common) for line in lines for f in line.get('findings', [])}\n\
                  for kind in sorted(own): print(kind, *own[kind])";
    let told = "exception-table\nname-order local local_name\nno-place without_line_at_the_end\nnot-sure below_line_1 cut_entry \
                left_over no_place not_sure\nnot-whole end first_left_over placed shown_line\nvalue bytes_left hint whole_values_end\n";
    assert_eq!(python(script, shown.as_bytes()), told);
    let help = ended(&["check", "--help"]).1;
    assert!(told.split_whitespace().all(|word| help.contains(word)), "{help}");
}

#[test]
fn quiet_json_leaves_out_what_is_accepted() {
    let (_, shown, _) = ended(&["check", "-q", "--json", "goldens"]);
    assert_eq!(shown.lines().count(), 4);
}

#[test]
fn junit() {
    let script = "import sys, xml.etree.ElementTree as tree\nroot = tree.parse(sys.stdin.buffer).getroot()\n\
                  suite = root.find('testsuite')\nprint(suite.attrib)\n\
                  print({p.get('name'): int(p.get('value')) for p in suite.iter('property')})\n\
                  for case in suite.iter('testcase'): print(case.get('name'), [(c.tag, c.get('type')) for c in case])\n\
                  print([c.text.count(chr(10)) for c in suite.iter('failure')])";
    let told = "{'name': 'sill check', 'tests': '6', 'failures': '3', 'errors': '1'}\n";
    let cases = "a.golden [('system-out', None)]\nb.golden [('failure', 'no-place')]\nc,<&\">%.golden [('failure', \
                 'not-whole')]\nd\u{FFFD}.golden [('failure', 'refused')]\ne.golden [('error', 'trouble')]\nf.golden \
                 [('system-out', None)]\n[2, 3, 4]\n";
    let shown = printed("format-junit", "--format=junit");
    assert_eq!(python(script, shown.as_bytes()), format!("{told}{TOTALS}\n{cases}"));
}

#[test]
fn sarif() {
    let script = "import json, sys\nlog = json.load(sys.stdin)\n[run] = log['runs']\nprint(log['version'], run['properties']['totals'])\n\
                  rules = [r['id'] for r in run['tool']['driver']['rules']]\n\
                  for r in run['results']:\n    place = r['locations'][0]['physicalLocation']\n    \
                  print(r['ruleId'], r['ruleId'] in rules, r['level'], place['artifactLocation']['uri'].split('/')[-1], \
                  'region' in place)\n";
    let told = "no-place True error b.golden True\nnot-whole True error c%2C%3C%26%22%3E%25.golden True\nno-place True error \
                c%2C%3C%26%22%3E%25.golden True\nno-place True error d%FF.golden True\nNoMarker True error d%FF.golden True\n\
                UnknownType True error d%FF.golden True\ntrouble True error e.golden False\nname-order True warning f.golden True\n";
    let shown = printed("format-sarif", "--format=sarif");
    assert_eq!(python(script, shown.as_bytes()), format!("2.1.0 {TOTALS}\n{told}"));
    let (status, shown, _) = ended(&["check", "--format=sarif", "goldens/rates.golden"]);
    assert_eq!(
        (status, python("import json, sys; print(json.load(sys.stdin)['runs'][0]['results'])", shown.as_bytes())),
        (0, "[]\n".to_string())
    );
}

#[test]
fn github() {
    let shown = printed("format-github", "--format=github");
    let starts: Vec<&str> = shown.lines().map(|line| line.split(": ").next().unwrap()).collect();
    let told = [
        "::error file=b.golden,title=no-place::code object total",
        "::error file=c%2C<&\">%25.golden,title=not-whole::code object total",
        "::error file=c%2C<&\">%25.golden,title=no-place::code object total",
        "::error file=d\u{FFFD}.golden,title=no-place::code object total",
        "::error file=d\u{FFFD}.golden,title=refused::exception table of code object total",
        "::error file=d\u{FFFD}.golden,title=refused::3 UnknownType at byte 95",
        "::error file=e.golden,title=trouble::No such file or directory",
        "::warning file=f.golden,title=name-order::code object f",
        "::notice title=sill check::5 files",
    ];
    assert_eq!(starts, told);
    assert!(shown.ends_with("::5 files: 2 accepted, 1 no-place, 1 not-whole, 1 refused, 1 trouble\n"), "{shown}");
}

/// An object a code object, each whole on its line; where a file is refused, one with the refusal.
#[test]
fn lines_in_json() {
    let (status, shown, _) = ended(&["lines", "--json", "goldens"]);
    assert_eq!(status, 1);
    let script = "import json, sys\nfor line in sys.stdin:\n    o = json.loads(line)\n    \
                  print(o['path'], o.get('code_object'), o.get('whole'), len(o.get('instructions', [])), o.get('last_row'), \
                  len(o.get('handlers', [])), o.get('refused', {}).get('byte'))\n";
    let told = "goldens/cut-line-table.golden <module> False 45 57 0 None\ngoldens/damaged-text.golden None None 0 None 0 190\n\
                goldens/fees.golden <module> True 21 9 0 None\ngoldens/fees.golden fee True 38 6 3 None\n\
                goldens/fees.golden fee.<locals>.scaled True 21 3 0 None\ngoldens/fees.golden <listcomp> True 22 9 0 None\n\
                goldens/in-fields-cut.golden <module> False 45 57 0 None\n\
                goldens/in-fields.golden <module> True 21 9 0 None\ngoldens/in-fields.golden fee True 38 6 3 None\n\
                goldens/in-fields.golden fee.<locals>.scaled True 21 3 0 None\ngoldens/in-fields.golden <listcomp> True 22 9 0 None\n\
                goldens/rates.golden <module> True 45 212 0 None\n";
    assert_eq!(python(script, shown.as_bytes()), told);
    let first = shown.lines().next().unwrap();
    assert!(first.contains("{\"line\":57,\"column\":1,\"end_line\":57,\"end_column\":4},{\"line\":null,\"why\":\"left over\",\"shown\":[1,1,1,1]}"), "{first}");
    let (_, shown, _) = ended(&["lines", "--json", "--not-whole", "goldens"]);
    assert_eq!(shown.lines().count(), 3);
}

/// A damaged table is null, with the reason beside it.
#[test]
fn damaged_tables_in_json() {
    let path =
        file(&folder("lines-damaged"), "x", &code_with(1, i32::MAX, &counted(b's', &[0xE8, 2]), &counted(b's', &[4])));
    let (status, shown, _) = ended(&["lines", "--json", &path]);
    let script = "import json, sys; o = json.load(sys.stdin); print(o['whole'], o['lines'], o['lines_refused']['number'], \
                  o['handlers'], o['handlers_refused']['name'])";
    assert_eq!((status, python(script, shown.as_bytes())), (1, "False None 18 None NoMarker\n".to_string()));
}
