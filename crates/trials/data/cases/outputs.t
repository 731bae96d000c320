An output that takes three bytes and then refuses is a failure, whatever was to be printed.
  $ narrow 3 --help
  ! tufcheck: output
  [4]
  $ narrow 3
  ! tufcheck: output
  [4]

What is said of a failure may be refused too: the status stays.
  $ deaf 3 bogus
  [3]
  $ deaf 3 init no/root --out no/state
  [4]

Where a state can't be stored, no line is printed.
  $ make
  > @keys
  > write root 1 1
  > @files
  $ init old
  root 1
  $ init none/new
  ! tufcheck: output
  [4]
  $ init targets
  ! tufcheck: output
  [4]
  $ verify old none/new abc.txt
  ! tufcheck: output
  [4]
  $ verify old targets abc.txt
  ! tufcheck: output
  [4]

A root is stored before its line.
  $ narrow 3 init metadata/1.root.json --out first
  ! tufcheck: output
  [4]
  $ same first old

A state is stored before the lines: here the output refuses the first byte, one in the midst, and to be flushed.
  $ verify old good
  root 1
  end ready
  $ narrow 0 verify --state old --metadata metadata --targets targets --now 2026-01-01T00:00:00Z --out new abc.txt
  ! tufcheck: output
  [4]
  $ same new good
  $ remove new
  $ narrow 7 verify --state old --metadata metadata --targets targets --now 2026-01-01T00:00:00Z --out new abc.txt
  ! tufcheck: output
  [4]
  $ same new good
  $ remove new
  $ narrow 42 verify --state old --metadata metadata --targets targets --now 2026-01-01T00:00:00Z --out new abc.txt
  ! tufcheck: output
  [4]
  $ same new good
