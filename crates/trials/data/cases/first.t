Without arguments a sample repository is made and verified in memory.
  $ tufcheck
  root 1
  end ready
  ok "abc.txt" 3 "targets"

A folder is verified twice. The state that is read stays, and the new one is there even before its name was.
  $ make
  > @wide
  > write root 1 1
  > @files
  $ init one
  root 1
  $ copy one before
  $ tufcheck verify --state one --metadata metadata --targets targets --now 2026-01-01T00:00:00Z --out two abc.txt
  root 1
  end ready
  ok "abc.txt" 3 "targets"
  $ same one before
  $ verify two three abc.txt
  root 1
  end ready
  ok "abc.txt" 3 "targets"
  $ same two three

A state that has to be new is stored where there is no file. A file that is there stays, whatever it is, and no root is read.
  $ tufcheck init --new metadata/1.root.json --out fresh
  root 1
  $ same fresh one
  $ tufcheck init --new metadata/1.root.json --out two
  ! tufcheck: state file
  [3]
  $ same two three
  $ tufcheck init --new none --out targets/abc.txt
  ! tufcheck: state file
  [3]
  $ tufcheck init --new metadata/1.root.json --out metadata
  ! tufcheck: state file
  [3]
  $ tufcheck init --new none --out other
  ! tufcheck: input
  [4]

What the targets file signs, and the brace behind it: 209 bytes and one.
  $ copy metadata/targets.json part
  $ change part
  > {..."signed":
  >
  $ put signed
  > {"_type":"targets","expires":"2030-01-01T00:00:00Z","spec_version":"1.0.0","targets":{"abc.txt":{"hashes":{"sha256":"ba7816bf8f01cfea414140de5dae2223b00361a396177a9cb410ff61f20015ad"},"length":3}},"version":1}}
  $ same part signed

The first state has the root alone, and the second one all four files, in the order of their names.
  $ keeps one
  root
  $ state right root=metadata/1.root.json
  $ same one right
  $ keeps two
  root snapshot targets timestamp
  $ state right root=metadata/1.root.json snapshot=metadata/snapshot.json targets=metadata/targets.json timestamp=metadata/timestamp.json
  $ same two right

The state may be written in place of the old one.
  $ verify one one
  root 1
  end ready
  $ same one two

No wanted path, one with an odd character, several, one twice, ten by more than twenty arguments, and one of no character.
  $ verify two new
  root 1
  end ready
  $ verify two new a"b
  root 1
  end ready
  no "a\x22b" NotFound
  [1]
  $ verify two new abc.txt abc abc.txt
  root 1
  end ready
  ok "abc.txt" 3 "targets"
  no "abc" NotFound
  ok "abc.txt" 3 "targets"
  [1]
  $ tufcheck verify --state two --metadata metadata --targets targets --now 2026-01-01T00:00:00Z --limit 8 --out new abc.txt a b c d e f g h abc.txt
  root 1
  end ready
  ok "abc.txt" 3 "targets"
  no "a" NotFound
  no "b" NotFound
  no "c" NotFound
  no "d" NotFound
  no "e" NotFound
  no "f" NotFound
  no "g" NotFound
  no "h" NotFound
  ok "abc.txt" 3 "targets"
  [1]
  $ verify two new ""
  root 1
  end ready
  no "" NotFound
  [1]
  $ verify two new -- -abc.txt
  root 1
  end ready
  no "-abc.txt" NotFound
  [1]

All files expire at 2030-01-01T00:00:00Z.
  $ verify two new --now 2029-12-31T23:59:59Z abc.txt
  root 1
  end ready
  ok "abc.txt" 3 "targets"
  $ verify two new --now 2030-01-01T00:00:00Z abc.txt
  root 1
  end root Expired
  no "abc.txt" NotSearched
  [2]

Without a moment it is the clock's, which is past 2020 and before 9999.
  $ make
  > @keys
  > expires 9999-12-31T23:59:59Z
  > write root 1 1
  > @files
  $ init one
  root 1
  $ tufcheck verify --state one --metadata metadata --targets targets --out two
  root 1
  end ready
  $ make
  > @keys
  > expires 9999-12-31T23:59:59Z
  > write root 1 1
  > @files
  > expires 2020-12-31T23:59:59Z
  > write timestamp 1 2
  $ init one
  root 1
  $ tufcheck verify --state one --metadata metadata --targets targets --out two
  root 1
  end timestamp Expired
  [2]

A root of another version.
  $ make
  > @keys
  > write root 7 1
  $ tufcheck init metadata/7.root.json --out one
  root 7
