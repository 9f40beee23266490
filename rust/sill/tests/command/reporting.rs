//! `sill report`: the page holds what `check --json` tells, stands alone, and stays small; what files hold is never markup.
use super::*;
use std::ffi::OsStr;
use std::os::unix::ffi::OsStrExt;

/// The data of a page on standard input, and helpers, for scripts of Python.
const PAGE: &str = "import json, re, sys, hashlib, base64\npage, _, rest = sys.stdin.read().partition('\\0')\n\
                    block = re.compile(r'<script type=\"application/json\" id=\"data\">(.*?)</script>', re.S)\n\
                    data = json.loads(block.search(page).group(1))\n\
                    path = lambda f: (data['folders'][f['folder']] + '/' + f['name'])\n";

/// What a script prints of the page of these paths, and of what `check --json` tells of them.
fn held(script: &str, words: &[&str]) -> String {
    let (_, page, _) = ended(&[&["report", "-o", "-"], words].concat());
    let (_, told, _) = ended(&[&["check", "--json"], words].concat());
    python(&format!("{PAGE}{script}"), format!("{page}\0{told}").as_bytes())
}

/// A file of each verdict, tables that are refused, and several damaged code objects in one file.
fn samples(name: &str) -> String {
    let folder = folder(name);
    let refused = [0xE9, 2, 0xE8, 0x40, 0x40, 0x40, 0x40, 0x40, 0x3F];
    fs::create_dir(folder.join("inner")).unwrap();
    file(&folder, "a.golden", b"N");
    file(&folder, "b.golden", &code(2, 10, &[0xE8, 0x02, 0xF8]));
    file(&folder, "inner/c.golden", &[b"N", &code(4, 10, &refused)[..]].concat());
    file(&folder, "inner/d.golden", &[&guarded(&[0x04])[..], b")\x02T{z\x04rows[\x01\0\0\0?"].concat());
    let many =
        [&b"[\x03\0\0\0"[..], &code(5, 7, &[0xE9, 2, 0xE8]), &code(5, 7, &[0xE9, 2, 0xF0]), &code(2, 3, &[0xF9, 0xF8])];
    file(&folder, "inner/e.golden", &many.concat());
    std::os::unix::fs::symlink("nowhere", folder.join("f.golden")).unwrap();
    file(&folder, "g.golden", b"i\x05\0");
    folder.to_str().unwrap().to_string()
}

#[test]
fn the_page_holds_what_check_tells() {
    let script = "told = [json.loads(line) for line in rest.splitlines()]\nfiles, totals = told[:-1], told[-1]['totals']\n\
        assert data['totals'] == totals, totals\n\
        verdicts = ['accepted', 'no-place', 'not-whole', 'refused', 'trouble']\n\
        shown = {path(f): f for f in data['damaged']}\n\
        sound = {path(dict(folder=s[0], name=s[1])): s for s in data['sound']}\n\
        assert len(shown) + len(sound) == len(files)\n\
        for f in files:\n\
        \x20   if f['verdict'] == 'accepted':\n\
        \x20       s = sound[f['path']]\n\
        \x20       assert s[2:6] == [f['values'], f['code_objects'], f['instructions'], f['not_sure']], s\n\
        \x20       continue\n\
        \x20   s = shown[f['path']]\n\
        \x20   assert verdicts[s['verdict']] == f['verdict'], s\n\
        \x20   if f['verdict'] == 'trouble':\n\
        \x20       assert s['text'] == f['error']\n\
        \x20       continue\n\
        \x20   faults = [x for x in f['findings'] if x['kind'] not in ('not-sure', 'name-order')]\n\
        \x20   assert s['refusals'] == sorted({x['number'] for x in faults if x['number']}), s\n\
        \x20   value = [x for x in faults if x['kind'] == 'value']\n\
        \x20   assert [(x['number'], x['name'], x['byte'], x['meaning'], x['hint']) for x in value] == \\\n\
        \x20       [(v['number'], v['name'], v['byte'], v['meaning'], v['hint']) for v in [s['value']] if v]\n\
        \x20   objects = {}\n\
        \x20   for x in faults:\n\
        \x20       if x['code_object'] is not None: objects.setdefault(x['code_byte'], []).append(x)\n\
        \x20   assert s['damaged'] == len(s['objects']) == len(objects), s\n\
        \x20   for o in s['objects']:\n\
        \x20       found = objects[o['byte']]\n\
        \x20       assert o['found'] == [x['text'] for x in found], o\n\
        \x20       assert all((o['name'], o['file'], o['first_line'], o['instructions'], o['last_row']) == tuple(x[k] for k in \
                    ('code_object', 'file', 'first_line', 'instructions', 'last_row')) for x in found)\n\
        \x20       assert [(r['number'], r['byte']) for r in o['refused']] == [(x['number'], x['byte']) for x in found if x['number']]\n\
        \x20       assert sum(o['counts']) == sum(o['strip'][0::2]) == sum(o['rows'][0::6]) == o['instructions'], o\n\
        \x20       unsure = [x for x in f['findings'] if x['kind'] == 'not-sure' and x['code_byte'] == o['byte']]\n\
        \x20       for x in unsure:\n\
        \x20           assert [x[k] for k in ('below_line_1', 'no_place', 'cut_entry', 'left_over')] == o['counts'][2:6], o\n\
        print(len(shown), len(sound), sum(len(f.get('objects', [])) for f in shown.values()))";
    assert_eq!(held(script, &["--strict", &samples("report-all")]), "6 1 6\n");
    assert_eq!(held(script, &["goldens"]), "3 6 2\n");
}

/// Ways, bytes about the place, rows, handlers and repairs, as they are in the data.
#[test]
fn what_is_drawn() {
    let folder = samples("report-drawn");
    let script = "shown = {path(f).rsplit('/')[-1]: f for f in data['damaged']}\n\
        d = shown['d.golden']['value']\nprint(d['way'], d['from'], bytes.fromhex(d['bytes'])[d['byte'] - d['from']:])\n\
        c = shown['c.golden']['objects'][0]\nprint(c['way'], c['refused'][0]['way'], c['counts'], c['repair']['mended'])\n\
        e = shown['e.golden']['objects']\nprint([o['way'] for o in e], [o['strip'] for o in e], e[0]['rows'])\n\
        print(e[1]['repair']['kept'], e[1]['repair']['covered'], shown['d.golden']['objects'][0]['handlers'])\n\
        print(shown['d.golden']['objects'][0]['no_repair'][:16], shown['g.golden']['value']['way'])";
    let told = "value 2 [1][\"rows\"][0] 64 b'?'\nvalue 2 value 2 .line_table [0, 2, 0, 0, 0, 0, 2] True\n\
                ['value 1 [0]', 'value 1 [1]', 'value 1 [2]'] [[2, 1, 1, 4, 2, 5], [2, 1, 1, 4, 2, 5], [2, 3]] [2, 1, 8, 1, 0, 1, 1, 4, 8, 1, 0, 1, 2, 5, 7, 1, 0, 1]\n\
                1 3 None\n3 UnknownType at value 1\n";
    assert_eq!(held(script, &[&folder]), told);
}

#[test]
fn handlers_and_their_rows() {
    let golden = [&guarded(&[0x81, 0x02, 0x05, 0x01])[..], b"?"].concat();
    let folder = folder("report-handlers");
    file(&folder, "a", &code_with(8, 10, &counted(b's', &[0xE9, 0x02]), &counted(b's', &[0x81, 0x02, 0x05, 0x01])));
    file(&folder, "b", &golden);
    let script = "print([o['handlers'] for f in data['damaged'] for o in f['objects']])";
    assert_eq!(held(script, &[folder.to_str().unwrap()]), "[[[1, 2, 5, 0, 1, 11, 11]]]\n");
}

/// Nothing but ASCII, nothing from elsewhere, and a policy that knows the page's own script and style.
#[test]
fn a_page_stands_alone() {
    let script = "assert page.isascii() and page.startswith('<!doctype html>')\n\
        bare = block.sub('', page)\nassert not re.search(r'https?:|//[a-z]|@import|url\\(|<(img|link|iframe|object|embed|form|base)|\\son[a-z]+=\\s*[\"\\']', bare)\n\
        [script], [style] = re.findall(r'<script>(.*?)</script>', page, re.S), re.findall(r'<style>(.*?)</style>', page, re.S)\n\
        hashed = lambda text: 'sha256-' + base64.b64encode(hashlib.sha256(text.encode()).digest()).decode()\n\
        policy = re.search(r'http-equiv=\"Content-Security-Policy\" content=\"(.*?)\"', page).group(1)\n\
        rules = dict(rule.strip().split(' ', 1) for rule in policy.split(';'))\n\
        assert rules.pop('script-src') == f\"'{hashed(script)}'\" and rules.pop('style-src') == f\"'{hashed(style)}'\"\n\
        assert page.index('Content-Security-Policy') < page.index('<style')\n\
        print(rules)";
    let told = "{'default-src': \"'none'\", 'base-uri': \"'none'\", 'form-action': \"'none'\", 'require-trusted-types-for': \"'script'\", \
                'trusted-types': \"'none'\"}\n";
    assert_eq!(held(script, &["goldens"]), told);
    let (_, page, _) = ended(&["diff", "--html", "goldens/rates.golden", "goldens/cut-line-table.golden"]);
    assert_eq!(python(&format!("{PAGE}{script}"), page.as_bytes()), told);
}

const MARKUP: &str = "</script><script>alert(1)</script><img src=x onerror=alert(1)>\"'&<!--\u{202E}\u{2066}\u{200B}";

/// Names and contents of markup, quotes, NULs, surrogates and marks of direction change nothing outside the data, where they are
/// told with escapes.
#[test]
fn hostile_files() {
    let hostile = folder("report-hostile");
    let name = format!("\0{MARKUP}");
    file(&hostile, &format!("{}.golden", MARKUP.replace('/', "|")), &named_code(&name, 2, 10, &[0xE8, 0x02]));
    file(&hostile, "line\nbreak\u{7F}\t.golden", &[b"{u\x03\0\0\0\xED\xB2\x80)\x01?".as_slice(), b"?"].concat());
    fs::write(hostile.join(OsStr::from_bytes(b"\xFF\xFE.golden")), [b"<script>".as_slice(), &[0; 9]].concat()).unwrap();
    let plain = folder("report-plain");
    file(&plain, "a.golden", &named_code("total", 2, 10, &[0xE8, 0x02]));
    file(&plain, "b.golden", b"{u\x01\0\0\0k)\x01??");
    file(&plain, "c.golden", b"<script>0123456789");
    let [one, other] = [hostile, plain].map(|folder| ended(&["report", "-o", "-", folder.to_str().unwrap()]).1);
    let bare = |page: &str| {
        let (before, rest) = page.split_once("id=\"data\">").unwrap();
        let (data, behind) = rest.split_once("</script>").unwrap();
        (format!("{before}{behind}"), data.to_string())
    };
    let ((one, data), (other, _)) = (bare(&one), bare(&other));
    assert_eq!(one, other);
    assert!(data.bytes().all(|byte| matches!(byte, b'\n' | b' '..=b'~') && !b"<>&'".contains(&byte)), "{data}");
    let script = "for f in data['damaged']: print(f['name'], [o['name'] for o in f['objects']], f.get('path_bytes', '')[-18:])\n\
                  print(data['damaged'][1]['value']['way'])";
    let shown = held(script, &[&format!("{}/report-hostile", env!("CARGO_TARGET_TMPDIR"))]);
    let markup = |slash: &str| {
        format!(
            "<{slash}script><script>alert(1)<{slash}script><img src=x onerror=alert(1)>\"'&<!--\\u{{202e}}\\u{{2066}}\\u{{200b}}"
        )
    };
    assert!(shown.starts_with(&format!("{}.golden [", markup("|"))), "{shown}");
    let rest =
        "line\\nbreak\\u{7f}\\t.golden [] \n\u{FFFD}\u{FFFD}.golden [] fffe2e676f6c64656e\nvalue 1 [\"\\udc80\"][0]\n";
    assert!(shown.ends_with(rest), "{shown}");
    let code = markup("/").replace('\\', "\\\\").replace('\'', "\\'");
    assert!(shown.contains(&format!("['\\\\0{}", &code[..60])), "{shown}");
}

/// What is long is cut and told, and 200 damaged files are within 3 MB, whatever is damaged in them.
#[test]
fn what_is_drawn_is_bounded() {
    let folder = folder("report-bounded");
    // A row of its own for each of 4,000 instructions, the line alone and no place in turns; the last are left over.
    let entries = [0xE8, 0x02, 0xF8].repeat(2_000);
    let long = code(4_100, 10, &entries);
    file(&folder, "long", &long);
    let deep = [b")\x01".repeat(900), code(2, 10, &[0xE8, 0x02])].concat();
    file(&folder, "deep", &deep);
    let handlers = [0x81, 0x01, 0x01, 0x00].repeat(50);
    file(&folder, "handlers", &code_with(200, 10, &counted(b's', &[0xE8, 0x02]), &counted(b's', &handlers)));
    let script = "f = {f['name']: f for f in data['damaged']}\nlong = f['long']['objects'][0]\n\
        rows = [long['rows'][at:at + 6] for at in range(0, len(long['rows']), 6)]\n\
        print(len(long['strip']) // 2, long['each'], len(rows), sum(row[0] for row in rows), [row[:3] for row in rows if row[1] == 7])\n\
        print(rows[-1], f['deep']['objects'][0]['way'][:20], f['deep']['objects'][0]['way'].count('[0]'), '876 steps' in f['deep']['objects'][0]['way'])\n\
        print(len(f['handlers']['objects'][0]['handlers']), f['handlers']['objects'][0]['more_handlers'], len(page) < 100_000)";
    let told = "118 35 172 4100 [[3830, 7, 3830]]\n[100, 5, 10, 1, 0, 1] value 1 [0][0][0][0] 24 True\n40 10 True\n";
    assert_eq!(held(script, &[folder.to_str().unwrap()]), told);
}

#[test]
fn two_hundred_damaged_files_are_a_small_page() {
    let folder = folder("report-small");
    let entries = [0xE8, 0x02, 0xF8].repeat(200);
    let objects = [b"(\x0E\0\0\0".as_slice(), &code(450, 10, &entries).repeat(14)].concat();
    for at in 0..200 {
        file(&folder, &format!("{at:03}.golden"), &objects);
    }
    let script = "objects = [o for f in data['damaged'] for o in f['objects']]\n\
        print(len(page) < 3_000_000, len(objects), all('strip' in f['objects'][0] for f in data['damaged']), {f['damaged'] for f in data['damaged']})\n\
        print(sum('strip' not in o for o in objects) == data['undrawn'] > 0)";
    assert_eq!(held(script, &[folder.to_str().unwrap()]), "True 2400 True {14}\nTrue\n");
}

#[test]
fn where_the_page_goes() {
    let folder = folder("report-out");
    let golden = file(&folder, "a.golden", &code(2, 10, &[0xE8, 0x02]));
    let out = folder.join("page.html").to_str().unwrap().to_string();
    let (status, told, _) = ended(&["report", "--output", &out, &golden]);
    let page = fs::read_to_string(&out).unwrap();
    assert_eq!(
        (status, told),
        (1, format!("written  {out}: {} bytes; 1 file: 0 accepted, 1 not whole, 0 refused\n", page.len()))
    );
    assert_eq!(ended(&["report", "-o", &out, "goldens/rates.golden"]).0, 0);
    for (words, complaint) in [
        (vec!["report", &golden], "report: -o OUT must be given; sill report --help says how to call it".to_string()),
        (
            vec!["report", "-o", &golden, &golden],
            format!("{golden}: is the file that is read; choose another name for OUT"),
        ),
        (
            vec!["report", "-o", &out, folder.to_str().unwrap()],
            format!("{out}: is the file that is read; choose another name for OUT"),
        ),
        (vec!["report", "-o", "/nowhere/x.html", "goldens"], "/nowhere/x.html: No such file or directory".to_string()),
    ] {
        assert_eq!(ended(&words), (2, String::new(), format!("sill: {complaint}\n")), "{words:?}");
    }
    let (status, page, told) = fed(&["report", "-o", "-", "-"], b"N");
    assert!(page.ends_with("</html>\n") && told.starts_with("written  -: "), "{told}");
    assert_eq!(status, 0);
}

/// The same files make the same page, but for the hour; a trouble is on the page and on standard error.
#[test]
fn the_same_page_again() {
    let folder = samples("report-again");
    let page = || {
        let mut command = Command::new(env!("CARGO_BIN_EXE_sill"));
        let output =
            command.args(["report", "-o", "-", &folder]).env("SOURCE_DATE_EPOCH", "1700000000").output().unwrap();
        (output.status.code(), output.stdout, String::from_utf8(output.stderr).unwrap())
    };
    let (status, shown, told) = page();
    assert_eq!((status, shown.as_slice()), (Some(2), page().1.as_slice()));
    assert!(String::from_utf8(shown).unwrap().contains("\"made\":\"2023-11-14 22:13 UTC\""));
    assert_eq!(told.matches("f.golden: No such file or directory").count(), 1);
}

/// Settings, .pyc headers and filters count as for check.
#[test]
fn as_check_is_asked() {
    let folder = folder("report-asked");
    let pyc = [&[0xA7, 0x0D, 0x0D, 0x0A][..], &[0; 12], &code(2, 10, &[0xE8, 0x02])].concat();
    file(&folder, "a.pyc", &pyc);
    file(&folder, "b.golden", &code(2, 10, &[0xE8, 0x02]));
    file(&folder, "c.txt", b"x");
    let settings = file(&folder, "only.settings", &[3, 5, 0, b'o', b't', b'h', b'e', b'r']);
    let folder = folder.to_str().unwrap();
    let script =
        "print(data['totals']['files'], [(f['name'], [o['way'] for o in f['objects']]) for f in data['damaged']])";
    let told = "2 [('a.pyc', ['value 1']), ('b.golden', ['value 1'])]\n";
    assert_eq!(held(script, &["--pyc", "--glob", "*.pyc", "--glob", "b*", folder]), told);
    let script = "print(data['prefix'], data['totals']['accepted'], data['strict'])";
    assert_eq!(held(script, &["--settings", &settings, "--strict", &format!("{folder}/b.golden")]), "other 1 True\n");
}
