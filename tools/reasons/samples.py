"""What `tools/explain` is to say: of files with one fault each the line, the column and a part of
the words; of words for it the status and a part."""

CLIENT = [
    (b"buffer 4 2\nfill 0 0 4 2 fF0000\n", 2, 14, "lower-case letter"),
    (b"buffer\t4 2\n", 1, 7, "a tab"),
    (b"\tview\n", 1, 1, "a tab stands before the first word"),
    (b" view\n", 1, 1, "a space stands before the first word"),
    (b"view\r\n", 1, 5, "a carriage return stands before the line feed: lines end so under"),
    (b"view\r\ntake\r\n", 1, 5, "line feed, as in 1 more line: lines end so under Windows"),
    (b"view\n\r\ntake\r\n", 2, 1, "the line is empty, but for a carriage return"),
    (b"\xef\xbb\xbfview\n", 1, 1, "byte order mark"),
    (b"\xff\xfev\0i\0", 1, 1, "UTF-16"),
    (b"buffer  4 2\n", 1, 8, "a second space"),
    (b"buffer 4 2 \n", 1, 11, "a space at the end"),
    (b"buffer 4 2   \n", 1, 11, "3 spaces at the end"),
    (b"buffer 4 \n", 1, 9, "the height is missing"),
    (b"buffer 4\n", 1, 9, "the height is missing"),
    (b"view\ntake", 2, 5, "without a line feed"),
    (b"view\n\ntake\n", 2, 1, "the line is empty"),
    (b"# views\n", 1, 1, "comment"),
    (b"buffer 04 2\n", 1, 8, "leading zero"),
    (b"buffer +4 2\n", 1, 8, "plus sign"),
    (b"buffer -4 2\n", 1, 8, "below zero"),
    (b"place 1 -0 0 4 2\n", 1, 9, "zero has no sign"),
    (b"upgrade 1234567890\n", 1, 9, "10 digits"),
    (b"buffer 4.0 2\n", 1, 8, "whole and in decimal"),
    (b"buffer four 2\n", 1, 8, "`four` stands where the width is to stand"),
    (b"bufer 4 2\n", 1, 1, "perhaps `buffer`"),
    (b"Buffer 4 2\n", 1, 1, "lower case"),
    (b"press 30\n", 1, 1, "a line of an input script"),
    (b"paste\n", 1, 1, "a line of a clip script"),
    (b"fill 0 0 4 2 #FF0000\n", 1, 14, "nothing stands before the digits"),
    (b"fill 0 0 4 2 F00\n", 1, 14, "3 digits"),
    (b"fill 0 0 4 2 red\n", 1, 14, "`red` stands where the colour is to stand"),
    (b"check 0 0 4 2 FF0000\n", 1, 21, "second colour is missing"),
    (b"title 1 hello\n", 1, 9, "begin with `=`"),
    (b"title 1 =caf\xc3\xa9\n", 1, 13, "0xC3"),
    (b"title 1 =" + b"x" * 41 + b"\n", 1, 50, "41 characters"),
    (b"view 1\n", 1, 6, "the line is to end"),
    (b"view\x1b[31m\n", 1, 5, "ESC"),
    (b"take\0\n", 1, 5, "NUL"),
]
INPUT = [
    (b"press 768\n", 1, 7, "out of range"),
    (b"press left\n", 1, 7, "right: the left button is `272`; `press CODE`"),
    (b"release Right\n", 1, 9, "right: the right button is `273`; `release CODE`"),
    (b"press a\n", 1, 7, "right: codes are those of Linux's input-event-codes.h"),
    (b"motion 1 65536\n", 1, 10, "out of range"),
    (b"wheel -128\n", 1, 7, "a number from -127 to 127"),
    (b"press\n", 1, 6, "the code is missing"),
    (b"view\n", 1, 1, "a line of a client's script"),
    (b"shot 1\n", 1, 6, "the line is to end"),
]
CLIP = [
    (b"copy hello\n", 1, 6, "begin with `=`"),
    (b"paste\ncopy\n", 2, 5, "the text is missing"),
    (b"view\n", 1, 1, "a line of a client's script"),
]
JOURNAL = [
    (b"call 0 done view\n", 1, 13, "`view` stands where `<` is to stand"),
    (b"call 16 done < view\n", 1, 6, "a number from 0 to 15"),
    (b"call 0 ok < view\n", 1, 8, "`ok` is no word that begins a reply"),
    (b"call 0 done < fill 0 0 1 1 FF0000\n", 1, 15, "and not a call"),
    (b"call 0 event press 768 < take\n", 1, 20, "out of range"),
    (b"input shot\n", 1, 7, "and not a device event"),
    (b"input press 30 > 0 leave > 0 leave > 0 leave > 0 leave\n", 1, 46, "a fourth delivery"),
    (b"input press 30 > 0 done\n", 1, 20, "begins what is delivered"),
    (b"shot 0\n", 1, 6, "a number from 1 to 65536"),
    (b"final", 1, 6, "without a line feed"),
    (b"events\n", 1, 1, "begins no entry"),
]
START = b'screen = { width = 8, height = 4 }\ninput.script = "i"\n'
ONE = b'[[client]]\nlabel = "a"\ndonation = 256\nscript = "a"\n'
CONFIG = [
    (b"[screen\n", 1, 8, "not ended by `]`"),
    (b"[screen]\nwidth = \n", 2, 9, "no value stands here"),
    (b"[screen]\nwidth 8\n", 2, 7, "where `=` is to stand"),
    (b"[screen]\nwidth = 08\n", 2, 9, "leading zero"),
    (b"[screen]\nwidth = 8 4\n", 2, 11, "where the line is to end"),
    (b"[screen]\nbar = True\n", 2, 7, "right: `bar = true`\n"),
    (b"[screen]\nbar = yes\n", 2, 7, "right: `bar = true`\n"),
    (b"[screen]\nbar=on # c\n", 2, 5, "`bar` is `on`, and has to be a boolean"),
    (b"screen.bar = no\n", 1, 14, "right: `bar = false`\n"),
    (b"screen = { width = 8, bar = OFF }\n", 1, 29, "right: `bar = false`\n"),
    (b"[screen]\nwidth = wide\n", 2, 9, "right: `width = 640`\n"),
    (b"[screen]\nfoobar = yes\n", 2, 10, 'right: `"yes"`\n'),
    (b"[screen]\nwidth = 8\nwidth = 9\n", 3, 1, "a second time"),
    (b"[input]\nscript = two.in\n", 2, 10, "a text without quotes"),
    (b"[input]\nscript = \"two.in\n", 2, 10, "is not ended"),
    (b"[input]\nscript = \"a\\q\"\n", 2, 12, "a backslash"),
    (b"[input]\n# \xff\n", 2, 3, "0xFF is no UTF-8"),
    (START + ONE + b"Layer = 1\n", 7, 1, "perhaps `layer`"),
    (START + ONE + b"width = 1\n", 7, 1, "it belongs to `[screen]`"),
    (START + ONE.replace(b"256", b"255"), 5, 12, "`donation` of client 1 (a) is 255"),
    (START + ONE.replace(b"256", b'"256"'), 5, 12, "is a string, and has to be an integer"),
    (START + ONE.replace(b"[[client]]", b"[client]"), 3, 2, "`[[client]]`, with two brackets"),
    (START + ONE.replace(b'"a"\nd', b'"A"\nd'), 4, 9, "client 1 (A) has the character `A`"),
    (START + ONE.replace(b'"a"\nd', b'"My Bank"\nd'), 4, 9, 'right: perhaps `"my-bank"`: a label'),
    (START + ONE.replace(b'"a"\nd', b'"a/b/c/d/e"\nd'), 4, 9, "right: a label is 1 to 20"),
    (START + ONE.replace(b'"a"\nd', b'""\nd'), 4, 9, "the label of client 1 is empty"),
    (START + ONE + ONE, 8, 9, "client 2 (a) has the label of client 1"),
    (START + ONE * 17, 67, 3, "there are 17 clients"),
    (START + ONE.replace(b'script = "a"\n', b""), 3, 3, "`script` of client 1 (a) is missing"),
    (START + ONE + b'focus = "on"\n', 7, 9, "`focus` of client 1 (a) is `on`"),
    (START + ONE + b'focus = "\\u001B[31m"\n', 7, 9, "is `\\x1b[31m`"),
    (START.replace(b" }", b", bar = true }") + ONE, 1, 41, "the bar is on"),
    (START.replace(b" }", b", bar = 0 }") + ONE, 1, 41, "right: `bar = false`\n"),
    (START.replace(b" }", b', bar = "yes" }') + ONE, 1, 41, "right: `bar = true`\n"),
    (START, 2, 19, "`client` is missing"),
]
ALL = {"client": CLIENT, "input": INPUT, "clip": CLIP, "journal": JOURNAL, "config": CONFIG}

# In examples/broken.
WORDS = [
    (["small.nit"], 1, "line 2, column 14: `ff0000` has a lower-case letter"),
    (["donation.toml"], 1, "line 10, column 12: `donation` of client 1 (a) is 255"),
    (["phases.toml"], 1, "good.nit 0, phase.nit 1, user.in 0"),
    (["still", "8", "4", "tab.nit"], 1, "line 1, column 7: a tab"),
    (["good.nit", "good.toml"], 0, "good.nit: a client's script of 4 lines"),
    (["turn", "good.toml"], 1, "`turn` is no command\n  right: perhaps `turns`"),
    (["turn", "good.toml"], 1, "The program says `usage: ..`, with status 2."),
    (["Turns", "good.toml"], 1, "right: `turns`, in lower case"),
    (["capital.nit", "good.nit"], 1, "good.nit: a client's script"),
    (["absent.nit", "good.nit"], 1, "absent.nit: it cannot be read"),
    (["-C", "../two", "turns", "two.toml"], 0, "words and files are good: clients 2"),
    (["-C", "..", "-C", "two", "two.toml"], 0, "two.toml: a configuration of 2 clients"),
    (["-C", "absent", "turns", "good.toml"], 2, "-C absent: No such file"),
    (["turns", "blocked.toml"], 1, "with status 4"),
    (["--out", "made", "turns", "blocked.toml"], 0, "words and files are good"),
    (["turns", "colon.toml"], 0, "a: 1 call is refused in the run, at colon.nit line 5: "
     "`title 1 =a:b` gets `bad-title`"),
    (["-C", "../threats", "turns", "quota.toml"], 0, "greedy: 4 calls are refused in the "
     "run, the first at greedy.nit line 3: `buffer 8 8` gets `out-of-quota 512 256`"),
    (["-C", "../kill", "kill.toml"], 0, "a: 3 calls are refused in a run by turns, the "
     "first at ka.nit line 7: `take` gets `killed`")
]

# In a folder of these files.
PART = b"[screen]\nwidth = 8\nheight = 8\n[input]\nscript = 'u.in'\n[[client]]\n" \
    b"label = 'a'\ndonation = 65536\nscript = 'a.nit'\n"
MANY = ["view", "bufer", "fill 0 0 1 1 red", *["view 1"] * 11]
FILES = {
    "scene.toml": PART, "u.in": b"phase\n", "a.nit": b"view\nphase\n", "b.nit": b"view\n",
    "w 1.nit": b"view\r\n" * 60000, "many.nit": "\n".join([*MANY, ""]).encode(),
    "open.nit": b"view\ntake", "full/journal.txt": None,
}
IS_READ_IN = "is the folder that is read in; put there without --out`, with status 2."
SLIPS = [
    (["many.nit"], 1, "line 2, column 1: `bufer`"),
    (["many.nit"], 1, "line 3, column 14: `red` stands where the colour is to stand\n"
     "     3 | fill 0 0 1 1 red\n       |              ^^^\n  right: red is"),
    (["many.nit"], 1, "\nand 3 more\nThe program says `many.nit: line 2: bad script`"),
    (["w 1.nit"], 1, "line 1, column 5: a carriage return stands before the line feed, as in 59999 "
     "more lines: lines end so under Windows\n     1 | view\\r\n       |     ^^\n  right: a line "
     "feed alone; `sed -i 's/\\r$//' 'w 1.nit'` takes all of them out\n  rule:  docs/FORMATS.md, "
     "Scripts: each line ends with one line feed\nThe program says `w 1.nit: line 1: bad script`"),
    (["open.nit"], 1, "right: a line feed behind the last line too; `echo >> open.nit` adds it"),
    (["turns", "scene.tml"], 1, "right: perhaps `scene.toml`, which is there"),
    (["turns", "Scene.toml"], 1, "right: perhaps `scene.toml`, which is there"),
    (["scene.tml"], 1, "right: perhaps the file `scene.toml`, which is there"),
    (["turns", "c.nit"], 1, "right: names go from the folder"),
    (["clip", "scene.toml"], 1, "a.nit.clip: it cannot be read: there is no such file"),
    (["clip", "scene.toml"], 1, "right: `clip` reads a clip script beside each client's script, "
     "here a.nit.clip for a.nit, with as many lines `phase`"),
    (["turns"], 1, "`turns` takes 1 word, and none is given"),
    (["audit", "scene.toml"], 1, "`audit` takes 2 words, and 1 is given"),
    (["turns", "scene.toml", "x"], 1, "`turns` takes 1 word, and 2 are given"),
    (["turns", "scene.toml"], 0, "words and files are good"),
    (["--out", "new/deep", "turns", "scene.toml"], 0, "words and files are good"),
    (["--out", ".", "turns", "scene.toml"], 1, f"bin/nitpicker says `. {IS_READ_IN}"),
    (["--out", "full/..", "turns", "none"], 1, f"bin/nitpicker says `full/.. {IS_READ_IN}"),
    (["--out", ".", "trun"], 1, "`trun` is no command"),
    (["--out", "a.nit", "turns", "scene.toml"], 1, "`a.nit takes no files: File exists`, with "
     "status 4."),
    (["--out", "a.nit/b", "turns", "scene.toml"], 1, "`a.nit/b takes no files: Not a directory`"),
    (["--out", "full", "turns", "scene.toml"], 1, "full/journal.txt: it cannot be written: a "
     "folder has this name"),
    (["-C", "full", "--out", "..", "gen", "1"], 0, "words and files are good"),
    (["--out", "a", "--out", "b", "gen", "1"], 2, "--out stands twice"),
    (["--out"], 2, "--out wants a folder behind it"),
]
