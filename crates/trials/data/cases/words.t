The words of the command line.

Help is no mistake.
  $ tufcheck help
  ...
  Usage: tufcheck <COMMAND>
  ...
  $ tufcheck --help
  ...
  EXAMPLES:
  ...
  $ tufcheck help init
  ...
  Usage: tufcheck init [OPTIONS] --out <STATE> <ROOT>
  ...
  $ tufcheck help make
  ...
  Usage: tufcheck make <SCRIPT> <DIR>
  ...
  $ tufcheck verify -h
  ...
  EXIT STATUS:
  ...
  $ tufcheck help show
  ...
  Usage: tufcheck show [OPTIONS] <STATE>
  ...

The version is no mistake either.
  $ tufcheck --version
  tufcheck 1.0.0 (rattle logic dac8208d650f15bf)
  $ tufcheck -V
  tufcheck 1.0.0 (rattle logic dac8208d650f15bf)
  $ narrow 3 --version
  ! tufcheck: output
  [4]
  $ tufcheck --version show
  tufcheck 1.0.0 (rattle logic dac8208d650f15bf)
  $ tufcheck show --version
  ! error: ...
  ...
  [3]

Usage errors are printed as the parser of the command line words them.
  $ tufcheck bogus
  ! error: ...
  ...
  [3]
  $ tufcheck init root
  ! error: ...
  ...
  [3]
  $ tufcheck init --out state
  ! error: ...
  ...
  [3]
  $ tufcheck init root root --out state
  ! error: ...
  ...
  [3]
  $ tufcheck make script
  ! error: ...
  ...
  [3]
  $ tufcheck make script folder more
  ! error: ...
  ...
  [3]
  $ tufcheck verify --metadata m --targets t --out s
  ! error: ...
  ...
  [3]
  $ tufcheck verify --state s --targets t --out s
  ! error: ...
  ...
  [3]
  $ tufcheck verify --state s --metadata m --out s
  ! error: ...
  ...
  [3]
  $ tufcheck verify --state s --metadata m --targets t
  ! error: ...
  ...
  [3]
  $ tufcheck verify --state s --state s --metadata m --targets t --out s
  ! error: ...
  ...
  [3]
  $ tufcheck verify --state s --metadata m --targets t --out s --now
  ! error: ...
  ...
  [3]
  $ tufcheck verify --state s --metadata m --targets t --out s -x
  ! error: ...
  ...
  [3]
  $ tufcheck verify --state s --metadata m --targets t --out s --limit 0
  ! error: ...
  ...
  [3]
  $ tufcheck verify --state s --metadata m --targets t --out s --limit 257
  ! error: ...
  ...
  [3]
  $ tufcheck verify --state s --metadata m --targets t --out s --workers 65
  ! error: ...
  ...
  [3]
  $ tufcheck verify --state s --metadata m --targets t --out s --workers=-1
  ! error: ...
  ...
  [3]

Of several errors the first is reported: the arguments, the moment, the state file, the folders.
  $ tufcheck verify --metadata no/m --targets no/t --out no/s --state no/state --limit 0 --now yesterday
  ! error: ...
  ...
  [3]
  $ tufcheck verify --metadata no/m --targets no/t --out no/s --state no/state --now yesterday
  ! tufcheck: now
  [3]
  $ tufcheck verify --metadata no/m --targets no/t --out no/s --state no/state --now 2026-01-01T00:00:00Z
  ! tufcheck: state file
  [3]
  $ put object
  > {}
  $ tufcheck verify --metadata no/m --targets no/t --out no/s --state object p
  ! tufcheck: state file
  [3]

A moment is read in full, and no clock is read in its place.
  $ make
  > @keys
  > write root 1 1
  > @files
  $ init old
  root 1
  $ verify old new --now yesterday
  ! tufcheck: now
  [3]
  $ verify old new --now 2026-01-01
  ! tufcheck: now
  [3]
  $ has new
  [1]

Root files that init refuses or can't read. No state is written.
  $ tufcheck init object --out new
  end root Malformed
  [2]
  $ tufcheck init none --out new
  ! tufcheck: input
  [4]
  $ tufcheck init metadata --out new
  ! tufcheck: input
  [4]
  $ tufcheck init "" --out new
  ! tufcheck: input
  [4]
  $ has new
  [1]
  $ tufcheck init object --out none/new
  end root Malformed
  [2]
  $ init none/new
  ! tufcheck: output
  [4]

With --progress the lines and the status are the same. It is an option of three commands, and may be given once.
  $ tufcheck verify --state old --metadata metadata --targets targets --now 2026-01-01T00:00:00Z --progress --out new abc.txt
  root 1
  end ready
  ok "abc.txt" 3 "targets"
  $ tufcheck replay --state old --now 2026-01-01T00:00:00Z --progress --out new abc.txt .
  cycle 1
  root 1
  end ready
  ok "abc.txt" 3 "targets"
  $ tufcheck next --state old --metadata metadata --targets targets --now 2026-01-01T00:00:00Z --progress abc.txt
  maybe "2.root.json" 512000
  $ tufcheck init metadata/1.root.json --progress --out new
  ! error: ...
  ...
  [3]
  $ tufcheck verify --state old --metadata metadata --targets targets --progress --progress --out new
  ! error: ...
  ...
  [3]
