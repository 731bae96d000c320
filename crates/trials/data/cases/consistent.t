Names of files where snapshots are consistent.

A target's file has its digest in its name, and no other name is tried.
  $ make
  > @wide
  > consistent yes
  > target targets d/e - sha256
  > write root 1 1
  > @files
  $ init old
  root 1
  $ verify old new d/e
  root 1
  end ready
  ok "d/e" 0 "targets"
  $ remove targets/d/e3b0c44298fc1c149afbf4c8996fb92427ae41e4649b934ca495991b7852b855.e
  $ put targets/d/e
  $ verify old new d/e
  root 1
  end ready
  no "d/e" Missing
  [1]

Files of roles have their versions in their names. Of two digests the name by sha256 is tried first, then that by sha512,
and the first file that is there counts. With sha512 alone there is no name by sha256.
  $ make
  > @keys
  > key 5 5 4
  > consistent yes
  > delegate targets a 1 5 go paths r
  > target a r 72 sha512
  > target targets b 62 both
  > write a 3 5
  > write root 1 1
  > @files
  $ init old
  root 1
  $ has metadata/3.a.json
  $ verify old new r b
  root 1
  end ready
  role "a" 3
  ok "r" 1 "a"
  ok "b" 1 "targets"
  $ copy targets/3e23e8160039594a33894f6564e1b1348bbd7a0088d42c4acb73eeaed59c009d.b targets/5267768822ee624d48fce15ec5ca79cbd602cb7f4c2157a516556991f22ef8c7b5ef7b18d1ff41c59370efb0858651d44a936c11b7b144c48fe04df3c6a3e8da.b
  $ put targets/3e23e8160039594a33894f6564e1b1348bbd7a0088d42c4acb73eeaed59c009d.b
  > c
  $ verify old new b
  root 1
  end ready
  no "b" HashWrong
  [1]
  $ remove targets/3e23e8160039594a33894f6564e1b1348bbd7a0088d42c4acb73eeaed59c009d.b
  $ verify old new b
  root 1
  end ready
  ok "b" 1 "targets"
  $ copy targets/a882f0ac848b0b6b4ca7b42bfa1d266afd0ddeba9204ae57a984a69376d59816b1ef3f4d442ea8a70396067ff5b70e0ae8eab3935b617b8e366d8e35c3bfe14c.r targets/454349e422f05297191ead13e21d3db520e5abef52055e4964b82fb213f593a1.r
  $ remove targets/a882f0ac848b0b6b4ca7b42bfa1d266afd0ddeba9204ae57a984a69376d59816b1ef3f4d442ea8a70396067ff5b70e0ae8eab3935b617b8e366d8e35c3bfe14c.r
  $ verify old new r
  root 1
  end ready
  role "a" 3
  no "r" Missing
  [1]

The last root that is trusted says whether snapshots are consistent.
  $ make
  > @keys
  > write root 1 1
  > consistent yes
  > write root 2 1
  > @files
  $ has metadata/1.snapshot.json
  $ has metadata/snapshot.json
  [1]
  $ init old
  root 1
  $ verify old new abc.txt
  root 2
  end ready
  ok "abc.txt" 3 "targets"
  $ make
  > @keys
  > consistent yes
  > write root 1 1
  > consistent no
  > write root 2 1
  > @files
  $ has metadata/1.snapshot.json
  [1]
  $ has metadata/snapshot.json
  $ init old
  root 1
  $ verify old new abc.txt
  root 2
  end ready
  ok "abc.txt" 3 "targets"
