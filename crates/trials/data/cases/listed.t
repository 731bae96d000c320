Wanted paths that a file lists.

A path a line, after those of the command line, in order. A path may come again.
  $ make
  > @keys
  > write root 1 1
  > @files
  $ init one
  root 1
  $ put list
  > no such
  > abc.txt
  > --limit
  $ verify one two abc.txt --paths-from list
  root 1
  end ready
  ok "abc.txt" 3 "targets"
  no "no such" NotFound
  ok "abc.txt" 3 "targets"
  no "--limit" NotFound
  [1]
  $ verify one two --paths-from list -- -c
  root 1
  end ready
  no "-c" NotFound
  no "no such" NotFound
  ok "abc.txt" 3 "targets"
  no "--limit" NotFound
  [1]

The last line may have a line feed, and may have none.
  $ put list
  > abc.txt
  $ verify one two --paths-from list
  root 1
  end ready
  ok "abc.txt" 3 "targets"
  $ put list
  > abc.txt
  > 
  $ verify one two --paths-from list
  root 1
  end ready
  ok "abc.txt" 3 "targets"

An empty file lists no path.
  $ put list
  $ verify one two --paths-from list
  root 1
  end ready
  $ verify one two --paths-from list --null
  root 1
  end ready

Bytes of a path stand as they are: blanks, quotes, a carriage return.
  $ verify one two --paths-from cases/names.list
  root 1
  end ready
  ok "abc.txt" 3 "targets"
  no "  \xe2\x80\x8b\x22\x5c " NotFound
  no "abc.txt\x0d" NotFound
  [1]

Paths that end with NUL may have line feeds. By lines, a NUL is a byte of a path.
  $ verify one two --paths-from cases/nul.list --null
  root 1
  end ready
  ok "abc.txt" 3 "targets"
  no "a\x0ab" NotFound
  no "\xc3\xa4.txt" NotFound
  [1]
  $ verify one two --paths-from cases/nul.list
  root 1
  end ready
  no "abc.txt\x00a" NotFound
  no "b\x00\xc3\xa4.txt\x00" NotFound
  [1]
  $ put list
  > abc.txt
  > no
  $ verify one two --null --paths-from list
  root 1
  end ready
  no "abc.txt\x0ano" NotFound
  [1]

Standard input, to its end. It has three lines, the last without its line feed; a second run finds nothing there.
  $ verify one two no --paths-from -
  root 1
  end ready
  no "no" NotFound
  ok "abc.txt" 3 "targets"
  no "-x" NotFound
  ok "abc.txt" 3 "targets"
  [1]
  $ verify one two no --paths-from -
  root 1
  end ready
  no "no" NotFound
  [1]

A path that is empty or isn't UTF-8 is a mistake. Nothing is verified or stored.
  $ remove two
  $ put list
  > abc.txt
  > 
  > abc.txt
  $ verify one two abc.txt --paths-from list
  ! tufcheck: words
  [3]
  $ put list
  > 
  > 
  $ verify one two --paths-from list
  ! tufcheck: words
  [3]
  $ verify one two --paths-from cases/odd.list
  ! tufcheck: words
  [3]
  $ verify one two --paths-from cases/cut.list
  ! tufcheck: words
  [3]
  $ verify one two --paths-from cases/odd.list --null
  ! tufcheck: words
  [3]
  $ has two
  [1]

A file that can't be read is a system error, and is reported before the moment and the state.
  $ verify one two --paths-from none
  ! tufcheck: input
  [4]
  $ verify one two --paths-from metadata
  ! tufcheck: input
  [4]
  $ verify one two --paths-from ""
  ! tufcheck: input
  [4]
  $ verify none two --paths-from none --now yesterday
  ! tufcheck: input
  [4]
  $ verify none two --paths-from cases/odd.list --now yesterday
  ! tufcheck: words
  [3]
  $ verify none two --paths-from list --now yesterday
  ! tufcheck: words
  [3]
  $ put list
  > abc.txt
  $ verify none two --paths-from list --now yesterday
  ! tufcheck: now
  [3]
  $ has two
  [1]

`--null` says how the file of `--paths-from` is read, so it needs that.
  $ verify one two --null abc.txt
  ! error: ...
  ...
  [3]
  $ verify one two --paths-from
  ! error: ...
  ...
  [3]
  $ verify one two --paths-from list --paths-from list
  ! error: ...
  ...
  [3]

`replay` takes them after its PATH.
  $ put list
  > no
  > abc.txt
  $ make
  > @keys
  > write root 1 1
  > @files
  $ tufcheck replay --state one --now 2026-01-01T00:00:00Z --paths-from list --out two abc.txt .
  cycle 1
  root 1
  end ready
  ok "abc.txt" 3 "targets"
  no "no" NotFound
  ok "abc.txt" 3 "targets"
  [1]
  $ remove two
  $ tufcheck replay --state one --now 2026-01-01T00:00:00Z --paths-from cases/nul.list --null --out two abc.txt . .
  cycle 1
  root 1
  end ready
  ok "abc.txt" 3 "targets"
  ok "abc.txt" 3 "targets"
  no "a\x0ab" NotFound
  no "\xc3\xa4.txt" NotFound
  cycle 2
  root 1
  end ready
  ok "abc.txt" 3 "targets"
  ok "abc.txt" 3 "targets"
  no "a\x0ab" NotFound
  no "\xc3\xa4.txt" NotFound
  [1]
  $ remove two
  $ tufcheck replay --state one --paths-from none --out two abc.txt .
  ! tufcheck: input
  [4]
  $ tufcheck replay --state none --paths-from cases/odd.list --out two abc.txt .
  ! tufcheck: words
  [3]
  $ has two
  [1]
