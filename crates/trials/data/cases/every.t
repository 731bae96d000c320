Each file of the targets folder is wanted.

Names are paths as they stand. All files come once, in byte order, also those that no role lists. A listed file that isn't there isn't wanted.
  $ make
  > @keys
  > target targets d/e/f 31 sha256
  > target targets b 62 sha256
  > target targets B 62 sha256
  > target targets gone 31 sha256
  > write root 1 1
  > @files
  $ init one
  root 1
  $ remove targets/gone
  $ put targets/d/other
  $ put targets/d.x
  $ put targets/ba7816bf8f01cfea414140de5dae2223b00361a396177a9cb410ff61f20015ad.abc.txt
  > abc
  $ verify one two --every
  root 1
  end ready
  ok "B" 1 "targets"
  ok "abc.txt" 3 "targets"
  ok "b" 1 "targets"
  no "ba7816bf8f01cfea414140de5dae2223b00361a396177a9cb410ff61f20015ad.abc.txt" NotFound
  no "d.x" NotFound
  ok "d/e/f" 1 "targets"
  no "d/other" NotFound
  [1]
  $ remove targets/ba7816bf8f01cfea414140de5dae2223b00361a396177a9cb410ff61f20015ad.abc.txt
  $ remove targets/d/other
  $ remove targets/d.x
  $ verify one two --every
  root 1
  end ready
  ok "B" 1 "targets"
  ok "abc.txt" 3 "targets"
  ok "b" 1 "targets"
  ok "d/e/f" 1 "targets"
  $ by 0,1,4,64 one three --every
  root 1
  end ready
  ok "B" 1 "targets"
  ok "abc.txt" 3 "targets"
  ok "b" 1 "targets"
  ok "d/e/f" 1 "targets"
  $ same two three
  $ put targets/abc.txt
  > abd
  $ put targets/b
  > bb
  $ verify one two --every
  root 1
  end ready
  ok "B" 1 "targets"
  no "abc.txt" HashWrong
  no "b" LengthWrong
  ok "d/e/f" 1 "targets"
  [1]

An empty folder has no path, and links have none.
  $ remove targets
  $ folder targets
  $ verify one two --every
  root 1
  end ready
  $ folder targets/d
  $ link metadata/1.root.json targets/abc.txt
  $ verify one two --every
  root 1
  end ready

After a stop no path was searched.
  $ put targets/d/e
  $ put targets/c
  $ put metadata/timestamp.json
  $ verify one two --every
  root 1
  end timestamp Malformed
  no "c" NotSearched
  no "d/e" NotSearched
  [2]

Delegated roles are searched for, and the limit holds.
  $ make
  > @keys
  > key 5 5 4
  > delegate targets a 1 5 go paths x/*
  > target a x/1 31 sha256
  > write a 3 5
  > write root 1 1
  > @files
  $ put targets/x/2
  > 1
  $ verify one two --every
  root 1
  end ready
  role "a" 3
  ok "abc.txt" 3 "targets"
  ok "x/1" 1 "a"
  no "x/2" NotFound
  [1]
  $ verify one two --every --limit 1
  root 1
  end ready
  ok "abc.txt" 3 "targets"
  no "x/1" LimitReached
  no "x/2" LimitReached
  [1]

With consistent names a path is the name without its digest, by sha256 or by sha512, in a folder as outside. Of two names with one path there is one line.
  $ make
  > @keys
  > consistent yes
  > target targets d/e - sha256
  > target targets r 31 sha512
  > target targets b 62 both
  > target targets ba7816bf8f01cfea414140de5dae2223b00361a396177a9cb410ff61f20015ad.abc 616263 sha256
  > write root 1 1
  > @files
  $ init one
  root 1
  $ has targets/ba7816bf8f01cfea414140de5dae2223b00361a396177a9cb410ff61f20015ad.ba7816bf8f01cfea414140de5dae2223b00361a396177a9cb410ff61f20015ad.abc
  $ copy targets/3e23e8160039594a33894f6564e1b1348bbd7a0088d42c4acb73eeaed59c009d.b targets/5267768822ee624d48fce15ec5ca79cbd602cb7f4c2157a516556991f22ef8c7b5ef7b18d1ff41c59370efb0858651d44a936c11b7b144c48fe04df3c6a3e8da.b
  $ verify one two --every
  root 1
  end ready
  ok "abc.txt" 3 "targets"
  ok "b" 1 "targets"
  ok "ba7816bf8f01cfea414140de5dae2223b00361a396177a9cb410ff61f20015ad.abc" 3 "targets"
  ok "d/e" 0 "targets"
  ok "r" 1 "targets"
  $ remove targets/3e23e8160039594a33894f6564e1b1348bbd7a0088d42c4acb73eeaed59c009d.b
  $ by 0,4 one two --every
  root 1
  end ready
  ok "abc.txt" 3 "targets"
  ok "b" 1 "targets"
  ok "ba7816bf8f01cfea414140de5dae2223b00361a396177a9cb410ff61f20015ad.abc" 3 "targets"
  ok "d/e" 0 "targets"
  ok "r" 1 "targets"

A stale file under another digest has the path of the listed one. If that isn't there, the path is `Missing`. A path that no role lists, and a name without a digest, is `NotFound`: so are digits in upper case, too few digits, a folder with a digest, and digits without a dot.
  $ put targets/d4735e3a265e16eee03f59718b9b5d03019c07d8b6c51f90da3a666eec13ab35.r
  > 2
  $ verify one two --every
  root 1
  end ready
  ok "abc.txt" 3 "targets"
  ok "b" 1 "targets"
  ok "ba7816bf8f01cfea414140de5dae2223b00361a396177a9cb410ff61f20015ad.abc" 3 "targets"
  ok "d/e" 0 "targets"
  ok "r" 1 "targets"
  $ remove targets/4dff4ea340f0a823f15d3f4f01ab62eae0e5da579ccb851f8db9dfe84c58b2b37b89903a740e1ee172da793a6e79d560e5f7f9bd058a12a280433ed6fa46510a.r
  $ put targets/d4735e3a265e16eee03f59718b9b5d03019c07d8b6c51f90da3a666eec13ab35.old
  > 2
  $ put targets/abc.txt
  > abc
  $ put targets/D4735E3A265E16EEE03F59718B9B5D03019C07D8B6C51F90DA3A666EEC13AB35.up
  > 2
  $ put targets/4735e3a265e16eee03f59718b9b5d03019c07d8b6c51f90da3a666eec13ab35.short
  > 2
  $ folder targets/d4735e3a265e16eee03f59718b9b5d03019c07d8b6c51f90da3a666eec13ab35.d
  $ put targets/d4735e3a265e16eee03f59718b9b5d03019c07d8b6c51f90da3a666eec13ab35.d/e
  $ put targets/d4735e3a265e16eee03f59718b9b5d03019c07d8b6c51f90da3a666eec13ab35
  > 2
  $ verify one two --every
  root 1
  end ready
  no "4735e3a265e16eee03f59718b9b5d03019c07d8b6c51f90da3a666eec13ab35.short" NotFound
  no "D4735E3A265E16EEE03F59718B9B5D03019C07D8B6C51F90DA3A666EEC13AB35.up" NotFound
  ok "abc.txt" 3 "targets"
  ok "b" 1 "targets"
  ok "ba7816bf8f01cfea414140de5dae2223b00361a396177a9cb410ff61f20015ad.abc" 3 "targets"
  ok "d/e" 0 "targets"
  no "d4735e3a265e16eee03f59718b9b5d03019c07d8b6c51f90da3a666eec13ab35" NotFound
  no "d4735e3a265e16eee03f59718b9b5d03019c07d8b6c51f90da3a666eec13ab35.d/e" NotFound
  no "old" NotFound
  no "r" Missing
  [1]

It takes the place of wanted paths, and is for `verify` alone.
  $ remove two
  $ put list
  > abc.txt
  $ verify one two --every abc.txt
  ! error: ...
  ...
  [3]
  $ verify one two --every --paths-from list
  ! error: ...
  ...
  [3]
  $ verify one two --every --null
  ! error: ...
  ...
  [3]
  $ verify one two --every --every
  ! error: ...
  ...
  [3]
  $ verify one two --every=yes
  ! error: ...
  ...
  [3]
  $ tufcheck replay --state one --every --out two abc.txt .
  ! error: ...
  ...
  [3]
  $ remove targets
  $ verify one two --every
  ! tufcheck: folder
  [4]
  $ has two
  [1]
