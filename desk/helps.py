"""What --help says. Its examples can be typed as they stand."""

SCHEME = "1 to 7; any other up to 255 is handed on and refused"
KEY = "16 bytes; better as @FILE than in hex, see below"
JOB_FILE = "also write the job's bytes, for `sealjob < FILE`; the key is in them"
OUT = "also write the output's bytes, only after answer 0; - for standard output, which then gets nothing else"
QUIET = "print the output's hex alone, - if it is empty; a refusal is one sentence on standard error"

JOB = """\
values:
  @FILE  the bytes of a file, as they are; @- those of standard input, for one value only
  hex    digits, two to a byte; spaces or colons may part bytes
  -      no bytes

keys:
  Words on a command line can be seen by others (ps, the shell's history), so give a key as @FILE.
  To make a key's file, which only its owner can read; the second takes a key in hex from the keyboard:
    (umask 077; head -c 16 /dev/urandom > card.key)
    (umask 077; python3 -c 'import sys; sys.stdout.buffer.write(bytes.fromhex(input()))' > card.key)

files:
  --job and --out make new files, which only their owner can read, and overwrite none. A job holds
  the key, and body or sealed run, for everyone who can read it; the output of open is the body.

exit status:
  0  done      1  refused      2  bad input, or a file or sealjob failed; a sentence on standard error says what
  130 after Ctrl-C, as a shell sees it
"""

ABOUT = """\
Seals and opens records by hand with the proved program sealjob, runs job sheets, compares sealed
runs block by block, and says in words what an answer means. `tools/desk COMMAND --help` says more
of a command. The first job that is run has sealjob proved and built, which takes several minutes.
"""

EXAMPLES = """\
examples:
  tools/desk run examples/jobs/*.sheet
  tools/desk explain 6
"""

SEAL = """\
Seals a body under a header. The output is the sealed run, one block longer than the body.
A nonce must never be used twice under one key.
"""

SEAL_EXAMPLE = """
example, three limits in half-decibel steps; the header's last byte, 80, names the step:
  tools/desk seal --scheme 2 --key @examples/jobs/sample.key \\
      --nonce 2026:0301:0868:0000:0000:0000:0009 \\
      --header '74 61 62 6c 65 20 38 36 38 4d 20 72 65 76 33 80' --body '24 28 2c'
"""

OPEN = """\
Opens a sealed run: gives the body that seals to it under this scheme, key, nonce and header, and
answers 6 if there is none. A header that pads to the same block is still another header.
"""

OPEN_EXAMPLE = """
example:
  tools/desk open --scheme 2 --key @examples/jobs/sample.key \\
      --nonce 2026:0301:0868:0000:0000:0000:0009 \\
      --header '74 61 62 6c 65 20 38 36 38 4d 20 72 65 76 33 80' \\
      --sealed 4dd9dc0c2b624c9aa41ffad90ad803f8d9e3f0
"""

RUN = """\
Runs job sheets, and raw jobs: files whose name ends in .job, as --job writes them. All are read
before the first is run. It shows each one's story, the line that sealjob printed and its meaning.
"""

SHEET = """\
a sheet has one word and its value to a line; unknown and repeated words are refused:
  # ..        a comment; those at the top are the story, which is shown
  scheme 2    a number from 0 to 255
  seal        or open; alone on its line
  key ..      @FILE for the bytes of a file, counted from the sheet's folder; or hex digits
  nonce ..    so too, and - for no bytes
  header ..
  body ..     to seal; to open it is: sealed ..
  expect 0    if given: the answer number that is right
  output ..   if given, with expect 0: the output that is right
A sheet with a key in it is to be kept like the key.

exit status:
  0  every answer is the one that its sheet expects, or 0 where it expects none
  1  some answer is not
  2  bad input, and nothing was run; or sealjob gave no answer

example:
  tools/desk run examples/jobs/*.sheet
"""

DIFFER = """\
Cuts two sealed runs of one scheme into their blocks, shows which differ, and says what that can
mean of the bodies, if both were sealed under one key, nonce and header. It needs no key and opens
nothing: docs/DIFFER.md says what is proved of such runs, and what is not.
"""

DIFFER_MORE = """\
exit status:
  0  the runs are equal      1  they differ      2  bad input; a sentence on standard error says what

example, two drafts of nineteen limits; the tenth was replaced:
  tools/desk differ --scheme 1 \\
      9ec6ee48a26b3bc43b107698546bc3ff3f5ebc590fb623bc16fcf4 \\
      9ec6ee48a26b3bc4ac3acf54be19510a8a5b0ad63f7db20d16fcf4
"""

EXPLAIN = """\
Says what an answer number means, what to check next, and what is left behind. Without a number
it lists them all. The numbers are 0 to 10.
"""

EXPLAIN_EXAMPLE = """\
example:
  tools/desk explain 6
"""
