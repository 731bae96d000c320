Repositories that are verified one after another, each from the state of the one before.

The same repository twice, and then with one letter of targets.json changed.
  $ make
  > @wide
  > write root 1 1
  > @files
  $ tufcheck make script same/one
  $ tufcheck make script same/two
  $ tufcheck make script same/three
  $ change same/three/metadata/targets.json
  > abc.txt
  > abd.txt
  $ init first
  root 1
  $ tufcheck replay --state first --now 2026-01-01T00:00:00Z --out last abc.txt same/one same/two same/three
  cycle 1
  root 1
  end ready
  ok "abc.txt" 3 "targets"
  cycle 2
  root 1
  end ready
  ok "abc.txt" 3 "targets"
  cycle 3
  root 1
  end targets HashWrong
  no "abc.txt" NotSearched
  [2]

The state is that of a verification of one of them.
  $ verify first one
  root 1
  end ready
  $ same one last

How many files are remembered, and how many threads check ahead, changes no line and no state.
  $ tufcheck replay --state first --keep 1 --workers 0 --now 2026-01-01T00:00:00Z --out a abc.txt same/one same/two same/three
  cycle 1
  root 1
  end ready
  ok "abc.txt" 3 "targets"
  cycle 2
  root 1
  end ready
  ok "abc.txt" 3 "targets"
  cycle 3
  root 1
  end targets HashWrong
  no "abc.txt" NotSearched
  [2]
  $ same last a
  $ tufcheck replay --state first --keep 1 --workers 8 --now 2026-01-01T00:00:00Z --out b abc.txt same/one same/two same/three
  cycle 1
  root 1
  end ready
  ok "abc.txt" 3 "targets"
  cycle 2
  root 1
  end ready
  ok "abc.txt" 3 "targets"
  cycle 3
  root 1
  end targets HashWrong
  no "abc.txt" NotSearched
  [2]
  $ same last b
  $ tufcheck replay --state first --keep 4096 --workers 0 --limit 1 --now 2026-01-01T00:00:00Z --out c abc.txt same/one same/two same/three
  cycle 1
  root 1
  end ready
  ok "abc.txt" 3 "targets"
  cycle 2
  root 1
  end ready
  ok "abc.txt" 3 "targets"
  cycle 3
  root 1
  end targets HashWrong
  no "abc.txt" NotSearched
  [2]
  $ same last c
  $ tufcheck replay --state first --keep 64 --workers 64 --now 2026-01-01T00:00:00Z --out d abc.txt same/one same/two same/three
  cycle 1
  root 1
  end ready
  ok "abc.txt" 3 "targets"
  cycle 2
  root 1
  end ready
  ok "abc.txt" 3 "targets"
  cycle 3
  root 1
  end targets HashWrong
  no "abc.txt" NotSearched
  [2]
  $ same last d

A newer repository, and then the first one again, which is older than the state that the second left.
  $ put script
  > @wide
  > target targets abc.txt 616263 sha256
  > write root 1 1
  > write targets 1 4
  > write snapshot 1 3
  > write timestamp 2 2
  $ tufcheck make script same/newer
  $ tufcheck replay --state first --now 2026-01-01T00:00:00Z --out last abc.txt same/one same/newer same/two
  cycle 1
  root 1
  end ready
  ok "abc.txt" 3 "targets"
  cycle 2
  root 1
  end ready
  ok "abc.txt" 3 "targets"
  cycle 3
  root 1
  end timestamp Rollback
  no "abc.txt" NotSearched
  [2]

The status is the last one's alone. Here the first stops, and the last is good.
  $ tufcheck replay --state first --now 2026-01-01T00:00:00Z --out last abc.txt same/three same/one
  cycle 1
  root 1
  end targets HashWrong
  no "abc.txt" NotSearched
  cycle 2
  root 1
  end ready
  ok "abc.txt" 3 "targets"
  $ tufcheck replay --state first --now 2026-01-01T00:00:00Z --out last none.txt same/one
  cycle 1
  root 1
  end ready
  no "none.txt" NotFound
  [1]

One moment serves all.
  $ tufcheck replay --state first --now 2100-01-01T00:00:00Z --out last abc.txt same/one same/two
  cycle 1
  root 1
  end root Expired
  no "abc.txt" NotSearched
  cycle 2
  root 1
  end root Expired
  no "abc.txt" NotSearched
  [2]

If a folder can't be read, nothing is printed of those before it, and no state is written.
  $ tufcheck replay --state first --now 2026-01-01T00:00:00Z --out none abc.txt same/one same/four
  ! tufcheck: folder
  [4]
  $ has none
  [1]

Words that are missing, or out of their range.
  $ tufcheck replay --state first --out none abc.txt
  ! error: ...
  ...
  [3]
  $ tufcheck replay --state first --out none --keep 0 abc.txt same/one
  ! error: ...
  ...
  [3]
  $ tufcheck replay --state first --out none --keep 4097 abc.txt same/one
  ! error: ...
  ...
  [3]
  $ tufcheck replay --state first --out none --now noon abc.txt same/one
  ! tufcheck: now
  [3]
  $ tufcheck replay --state none --out none abc.txt same/one
  ! tufcheck: state file
  [3]
