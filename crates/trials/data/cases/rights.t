Files and folders that may not be read. The steps of this case differ for the superuser, who may read all.
  $ make
  > @keys
  > target targets d 64 sha256
  > write root 1 1
  > @files
  $ lock metadata/1.root.json
  $ init old
  ! tufcheck: input
  [4]
  $ unlock metadata/1.root.json
  $ init old
  root 1

A file of the folder of metadata.
  $ lock metadata/snapshot.json
  $ verify old new abc.txt
  ! tufcheck: folder
  [4]
  $ has new
  [1]
  $ unlock metadata/snapshot.json

Another file there isn't opened: the workflow doesn't look it up.
  $ put metadata/other.json
  > {}
  $ lock metadata/other.json
  $ verify old new abc.txt
  root 1
  end ready
  ok "abc.txt" 3 "targets"
  $ remove new

Of the folder of targets only the files are opened that a path leads to, once the metadata is good.
  $ put targets/other
  > other
  $ lock targets/other
  $ lock targets/d
  $ by 0,1,4 old new abc.txt other
  root 1
  end ready
  ok "abc.txt" 3 "targets"
  no "other" NotFound
  [1]
  $ remove new
  $ by 0,1,4 old new d
  ! tufcheck: folder
  [4]
  $ has new
  [1]
  $ by 0,1,4 old new d abc.txt
  ! tufcheck: folder
  [4]
  $ has new
  [1]
  $ by 0,1,4 old new abc.txt d
  ! tufcheck: folder
  [4]
  $ has new
  [1]
  $ copy metadata/targets.json good
  $ remove metadata/targets.json
  $ by 0,1,4 old new d
  root 1
  end targets Missing
  no "d" NotSearched
  [2]
  $ copy good metadata/targets.json
  $ remove new

The same for several repositories, one after another. Nothing is printed of any if one of them can't be read.
  $ tufcheck replay --state old --now 2026-01-01T00:00:00Z --out new d . .
  ! tufcheck: folder
  [4]
  $ has new
  [1]
  $ tufcheck replay --state old --now 2026-01-01T00:00:00Z --out new abc.txt . .
  cycle 1
  root 1
  end ready
  ok "abc.txt" 3 "targets"
  cycle 2
  root 1
  end ready
  ok "abc.txt" 3 "targets"
  $ unlock targets/d
  $ by 0,1,4 old new d abc.txt
  root 1
  end ready
  ok "d" 1 "targets"
  ok "abc.txt" 3 "targets"
  $ remove new

A folder below that of targets, whose files have to be listed.
  $ folder targets/below
  $ lock targets/below
  $ by 0,1,4 old new
  ! tufcheck: folder
  [4]
  $ by 0,1,4 old new abc.txt
  ! tufcheck: folder
  [4]
  $ has new
  [1]
  $ unlock targets/below

The state.
  $ lock old
  $ verify old new abc.txt
  ! tufcheck: state file
  [3]
  $ unlock old
  $ verify old new abc.txt
  root 1
  end ready
  ok "abc.txt" 3 "targets"

Where snapshots are consistent, the first file that is there counts, and no other is opened.
  $ make
  > @keys
  > consistent yes
  > target targets b 62 both
  > write root 1 1
  > @files
  $ remove old
  $ init old
  root 1
  $ remove new
  $ copy targets/3e23e8160039594a33894f6564e1b1348bbd7a0088d42c4acb73eeaed59c009d.b targets/5267768822ee624d48fce15ec5ca79cbd602cb7f4c2157a516556991f22ef8c7b5ef7b18d1ff41c59370efb0858651d44a936c11b7b144c48fe04df3c6a3e8da.b
  $ lock targets/3e23e8160039594a33894f6564e1b1348bbd7a0088d42c4acb73eeaed59c009d.b
  $ by 0,1,4 old new b
  ! tufcheck: folder
  [4]
  $ has new
  [1]
  $ unlock targets/3e23e8160039594a33894f6564e1b1348bbd7a0088d42c4acb73eeaed59c009d.b
  $ lock targets/5267768822ee624d48fce15ec5ca79cbd602cb7f4c2157a516556991f22ef8c7b5ef7b18d1ff41c59370efb0858651d44a936c11b7b144c48fe04df3c6a3e8da.b
  $ by 0,1,4 old new b
  root 1
  end ready
  ok "b" 1 "targets"
