The files of targets, which are read a piece of 65,536 bytes at a time. The targets file is listed by its version alone, so
that it can be changed and signed anew.
  $ make
  > @wide
  > write root 1 1
  > @files
  $ init old
  root 1
  $ change metadata/timestamp.json 2
  > "hashes":{..."version":1}
  > "version":1}
  $ change metadata/snapshot.json 3
  > "hashes":{..."version":1}
  > "version":1}
  $ copy metadata/targets.json good

A file that is longer than listed, by a byte and by many.
  $ pad targets/abc.txt 4
  $ by 0,1,4 old new abc.txt
  root 1
  end ready
  no "abc.txt" LengthWrong
  [1]
  $ pad targets/abc.txt 65536
  $ by 0,1,4 old new abc.txt
  root 1
  end ready
  no "abc.txt" LengthWrong
  [1]
  $ pad targets/abc.txt 6000000
  $ by 0,1,4 old new abc.txt
  root 1
  end ready
  no "abc.txt" LengthWrong
  [1]

A file of no byte, and one where none is listed.
  $ copy good metadata/targets.json
  $ change metadata/targets.json 4
  > "hashes":{..."length":3
  > "hashes":{"sha256":"e3b0c44298fc1c149afbf4c8996fb92427ae41e4649b934ca495991b7852b855","sha512":"cf83e1357eefb8bdf1542850d66d8007d620e4050b5715dc83f4a921d36ce9ce47d0d13c5d85f2b0ff8318d2877eec2f63b931bd47417a81a538327af927da3e"},"length":0
  $ pad targets/abc.txt 0
  $ by 0,1,4 old new abc.txt
  root 1
  end ready
  ok "abc.txt" 0 "targets"
  $ pad targets/abc.txt 1
  $ by 0,1,4 old new abc.txt
  root 1
  end ready
  no "abc.txt" LengthWrong
  [1]

A file of one piece: abc and blanks. It is tried with a byte less, with a byte more, and with another byte.
  $ copy good metadata/targets.json
  $ change metadata/targets.json 4
  > "hashes":{..."length":3
  > "hashes":{"sha256":"8b04be3d2be1935e11a26b5dfb905db4bf2e01e1533471ff26c493eee1315bbe","sha512":"2feca791c530a77ffceb1d830f2d04d0a8ef7982880438024c76a27aca8aba11970c174264f59b48b44c2795be8e7431346970864c7619c6a85b6f7f58d7e24d"},"length":65536
  $ put targets/abc.txt
  > abc
  $ pad targets/abc.txt 65535
  $ by 0,1,4 old new abc.txt
  root 1
  end ready
  no "abc.txt" LengthWrong
  [1]
  $ pad targets/abc.txt 65536
  $ by 0,1,4 old new abc.txt
  root 1
  end ready
  ok "abc.txt" 65536 "targets"
  $ pad targets/abc.txt 65537
  $ by 0,1,4 old new abc.txt
  root 1
  end ready
  no "abc.txt" LengthWrong
  [1]
  $ put targets/abc.txt
  > abd
  $ pad targets/abc.txt 65536
  $ by 0,1,4 old new abc.txt
  root 1
  end ready
  no "abc.txt" HashWrong
  [1]

The same bytes and one more, by both digests and by each alone.
  $ copy good metadata/targets.json
  $ change metadata/targets.json 4
  > "hashes":{..."length":3
  > "hashes":{"sha256":"90c8dc238774f56e9ffb18e2c43b9d5baf675a4adbab8ef1574cae51d398f147","sha512":"000215ff96d8caf21fbae9da7ecd6228ad012308087553b424a36ded88f1c4ae04e1129600bc7d635bd327b003d0e56c408a677a78f242432f01826a524bf619"},"length":65537
  $ put targets/abc.txt
  > abc
  $ pad targets/abc.txt 65536
  $ by 0,1,4 old new abc.txt
  root 1
  end ready
  no "abc.txt" LengthWrong
  [1]
  $ pad targets/abc.txt 65537
  $ by 0,1,4 old new abc.txt
  root 1
  end ready
  ok "abc.txt" 65537 "targets"
  $ pad targets/abc.txt 65538
  $ by 0,1,4 old new abc.txt
  root 1
  end ready
  no "abc.txt" LengthWrong
  [1]
  $ pad targets/abc.txt 65537
  $ copy good metadata/targets.json
  $ change metadata/targets.json 4
  > "hashes":{..."length":3
  > "hashes":{"sha256":"90c8dc238774f56e9ffb18e2c43b9d5baf675a4adbab8ef1574cae51d398f147"},"length":65537
  $ by 0,1,4 old new abc.txt
  root 1
  end ready
  ok "abc.txt" 65537 "targets"
  $ copy good metadata/targets.json
  $ change metadata/targets.json 4
  > "hashes":{..."length":3
  > "hashes":{"sha512":"000215ff96d8caf21fbae9da7ecd6228ad012308087553b424a36ded88f1c4ae04e1129600bc7d635bd327b003d0e56c408a677a78f242432f01826a524bf619"},"length":65537
  $ by 0,1,4 old new abc.txt
  root 1
  end ready
  ok "abc.txt" 65537 "targets"

The digests of the first piece alone are wrong.
  $ copy good metadata/targets.json
  $ change metadata/targets.json 4
  > "hashes":{..."length":3
  > "hashes":{"sha256":"8b04be3d2be1935e11a26b5dfb905db4bf2e01e1533471ff26c493eee1315bbe","sha512":"2feca791c530a77ffceb1d830f2d04d0a8ef7982880438024c76a27aca8aba11970c174264f59b48b44c2795be8e7431346970864c7619c6a85b6f7f58d7e24d"},"length":65537
  $ by 0,1,4 old new abc.txt
  root 1
  end ready
  no "abc.txt" HashWrong
  [1]

Where snapshots are consistent, a file that lies under the name by its sha512 alone. The same file under its path counts for
nothing.
  $ make
  > @keys
  > consistent yes
  > target targets b 62 both
  > write root 1 1
  > @files
  $ remove old
  $ init old
  root 1
  $ copy targets/3e23e8160039594a33894f6564e1b1348bbd7a0088d42c4acb73eeaed59c009d.b targets/5267768822ee624d48fce15ec5ca79cbd602cb7f4c2157a516556991f22ef8c7b5ef7b18d1ff41c59370efb0858651d44a936c11b7b144c48fe04df3c6a3e8da.b
  $ remove targets/3e23e8160039594a33894f6564e1b1348bbd7a0088d42c4acb73eeaed59c009d.b
  $ by 0,1,4 old new b
  root 1
  end ready
  ok "b" 1 "targets"
  $ put targets/b
  > b
  $ remove targets/5267768822ee624d48fce15ec5ca79cbd602cb7f4c2157a516556991f22ef8c7b5ef7b18d1ff41c59370efb0858651d44a936c11b7b144c48fe04df3c6a3e8da.b
  $ by 0,1,4 old new b
  root 1
  end ready
  no "b" Missing
  [1]
