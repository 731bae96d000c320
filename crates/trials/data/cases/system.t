Without a text the moment is the clock's, without its fraction of a second.
  $ clock 0 999999999
  day 0, second 0
  $ clock 1767225600 0
  day 20454, second 0
  $ clock 253402300799 999999999
  day 2932896, second 86399

A clock past the year 9999, or one that can't be read, is a failure where no text is given.
  $ clock 253402300800 0
  ! tufcheck: clock
  [4]
  $ clock none 0
  ! tufcheck: clock
  [4]
  $ clock none 0 2026-01-01T00:00:00Z
  day 20454, second 0
  $ clock none 0 2026-01-01
  ! tufcheck: now
  [3]
  $ clock 1767225600 0 2026-01-01
  ! tufcheck: now
  [3]

Folders that fail at each of their calls: nothing is stored, and nothing printed. The folder of metadata is listed, and three
of its four files are read, not the root that is trusted. The folder of targets is listed, and the two files that the paths
lead to are read, but not the third.
  $ make
  > @one
  > target targets a 61 sha256
  > target targets b 6262 both
  > target targets c 636363 sha512
  > @top
  $ failing 0 3 new a b
  ! tufcheck: folder
  [4]
  $ has new
  [1]
  $ failing 1 3 new a b
  ! tufcheck: folder
  [4]
  $ has new
  [1]
  $ failing 2 3 new a b
  ! tufcheck: folder
  [4]
  $ has new
  [1]
  $ failing 3 3 new a b
  ! tufcheck: folder
  [4]
  $ has new
  [1]
  $ failing 4 0 new a b
  ! tufcheck: folder
  [4]
  $ has new
  [1]
  $ failing 4 1 new a b
  ! tufcheck: folder
  [4]
  $ has new
  [1]
  $ failing 4 2 new a b
  ! tufcheck: folder
  [4]
  $ has new
  [1]
  $ failing 4 3 new a b
  root 1
  end ready
  ok "a" 1 "targets"
  ok "b" 2 "targets"
  $ has new
  $ remove new

A file that is wanted twice is read once.
  $ failing 4 1 new b b
  ! tufcheck: folder
  [4]
  $ has new
  [1]
  $ failing 4 2 new b b
  root 1
  end ready
  ok "b" 2 "targets"
  ok "b" 2 "targets"
  $ has new
  $ remove new

Nothing is read of the targets without a path, for one that isn't listed, or where the cycle stops before.
  $ failing 4 0 new
  ! tufcheck: folder
  [4]
  $ has new
  [1]
  $ failing 4 1 new
  root 1
  end ready
  $ failing 4 1 new d
  root 1
  end ready
  no "d" NotFound
  [1]
  $ remove targets/b
  $ failing 4 1 new b
  root 1
  end ready
  no "b" Missing
  [1]
  $ remove metadata/timestamp.json
  $ failing 1 1 new a
  root 1
  end timestamp Missing
  no "a" NotSearched
  [2]

Where snapshots are consistent, of two files of one target the first is read and the other isn't.
  $ make
  > @one
  > consistent yes
  > target targets b 62 both
  > @top
  $ copy targets/3e23e8160039594a33894f6564e1b1348bbd7a0088d42c4acb73eeaed59c009d.b targets/5267768822ee624d48fce15ec5ca79cbd602cb7f4c2157a516556991f22ef8c7b5ef7b18d1ff41c59370efb0858651d44a936c11b7b144c48fe04df3c6a3e8da.b
  $ remove new
  $ failing 4 1 new b
  ! tufcheck: folder
  [4]
  $ has new
  [1]
  $ failing 4 2 new b
  root 1
  end ready
  ok "b" 1 "targets"
