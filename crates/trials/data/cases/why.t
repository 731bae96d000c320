Why an update stopped, or a target's file is refused. Expected are the lines of `checks/second/reading.py` on the same files, so Python computed each length and digest; the ids are also those of the keys of `checks/tuf.py`.

One of two keys signed. Two ids more count for nothing.
  $ make
  > @wide
  > key 5 5
  > top timestamp 2 2,5
  > write root 1 1
  > write targets 1 4
  > write snapshot 1 3
  > write timestamp 1 2,5,5
  $ copy metadata/timestamp.json timestamp
  $ change metadata/timestamp.json 2
  > "version":1}
  > "version":1}
  $ change metadata/1.root.json 1
  > "keys":{
  > "keys":{"odd":{"keytype":"an \"odd\" key"},
  $ change metadata/1.root.json 1
  > "timestamp":{"keyids":[
  > "timestamp":{"keyids":["none","odd",
  $ init old
  root 1
  $ verify old new --why abc.txt
  root 1
  end timestamp Unsigned
  why file "timestamp.json" 2925
  why keys "1.root.json" threshold 2 signed 1
  why key "none" absent
  why key "odd" unusable type "an \x22odd\x22 key"
  why key "2385232a0bfec62c5a0cac4382a7e6679c31b1d83c2e6e51e8fddd1e16ac2e96" signed 0
  why key "b66b2880a2a988e776c692a0d2ca9364646ee8c9d28f2ee2b9d52f989c5754a0" unsigned
  no "abc.txt" NotSearched
  [2]

Without the option there is no such line, and the state is the same.
  $ verify old plain abc.txt
  root 1
  end timestamp Unsigned
  no "abc.txt" NotSearched
  [2]
  $ same new plain

A signature that names another leaf. Then one with a letter that is no digit, and of the two of one key the first with a leaf past the last.
  $ copy timestamp metadata/timestamp.json
  $ change metadata/timestamp.json
  > "sig":"00000000
  > "sig":"00000003
  $ verify old new --why
  root 1
  end timestamp Unsigned
  why file "timestamp.json" 8265
  why keys "1.root.json" threshold 2 signed 1
  why key "none" absent
  why key "odd" unusable type "an \x22odd\x22 key"
  why key "2385232a0bfec62c5a0cac4382a7e6679c31b1d83c2e6e51e8fddd1e16ac2e96" invalid 1 root
  why key "b66b2880a2a988e776c692a0d2ca9364646ee8c9d28f2ee2b9d52f989c5754a0" signed 0
  [2]
  $ change metadata/timestamp.json
  > "sig":"00000003
  > "sig":"g0000003
  $ change metadata/timestamp.json
  > "sig":"00000000
  > "sig":"00000020
  $ change metadata/timestamp.json
  > "sig":"00000001
  > "sig":"00000002
  $ verify old new --why
  root 1
  end timestamp Unsigned
  why file "timestamp.json" 8265
  why keys "1.root.json" threshold 2 signed 0
  why key "none" absent
  why key "odd" unusable type "an \x22odd\x22 key"
  why key "2385232a0bfec62c5a0cac4382a7e6679c31b1d83c2e6e51e8fddd1e16ac2e96" invalid 1 hexadecimal
  why key "b66b2880a2a988e776c692a0d2ca9364646ee8c9d28f2ee2b9d52f989c5754a0" invalid 2 leaf 32
  [2]

No timestamp; one that is no JSON, has no signatures, signs no object, is too long.
  $ remove metadata/timestamp.json
  $ verify old new --why
  root 1
  end timestamp Missing
  why absent "timestamp.json"
  [2]
  $ put metadata/timestamp.json
  > no JSON
  $ verify old new --why
  root 1
  end timestamp Malformed
  why file "timestamp.json" 7
  why json
  [2]
  $ put metadata/timestamp.json
  > {"signed":{}}
  $ verify old new --why
  root 1
  end timestamp Malformed
  why file "timestamp.json" 13
  why signatures
  [2]
  $ put metadata/timestamp.json
  > {"signed":[]}
  $ verify old new --why
  root 1
  end timestamp Malformed
  why file "timestamp.json" 13
  why object
  [2]
  $ copy timestamp metadata/timestamp.json
  $ pad metadata/timestamp.json 16385
  $ verify old new --why
  root 1
  end timestamp TooLong
  why file "timestamp.json" 16385
  why length 16385 most 16384
  [2]

A snapshot of another digest, and then of another length.
  $ copy timestamp metadata/timestamp.json
  $ change metadata/snapshot.json
  > "sig":"0
  > "sig":"1
  $ verify old new --why
  root 1
  end snapshot HashWrong
  why file "snapshot.json" 2923
  why sha256 336a7e089eb6dd2d4361d737ab06264a01aa7c8bcf966554c6d4dae6b77a9a6f listed 0f49ee2cefbb170cadf02d80a732b6d37f53fc076e535c96d49ecedaa4c83bd1
  [2]
  $ pad metadata/snapshot.json 4000
  $ verify old new --why
  root 1
  end snapshot LengthWrong
  why file "snapshot.json" 4000
  why length 4000 listed 2923
  [2]

A root of the version before.
  $ copy metadata/1.root.json metadata/2.root.json
  $ verify old new --why
  root 1
  end root VersionWrong
  why file "2.root.json" 4568
  why version 1 expected 2
  [2]

A root that its own key didn't sign, and then an expired one.
  $ make
  > @one
  > write root 1 1
  > key 5 5 4
  > top root 1 5
  > write root 2 1
  $ init old
  root 1
  $ verify old new --why
  root 1
  end root Unsigned
  why file "2.root.json" 5839
  why keys "2.root.json" threshold 1 signed 0
  why key "0e968fc3ca37547d3ce3ef0c48fa0a26faeb20a0c2a33e893bdd1bf433775d20" unsigned
  [2]
  $ remove metadata/2.root.json
  $ verify old new --why --now 2030-01-01T00:00:00Z
  root 1
  end root Expired
  why trusted expires 2030-01-01T00:00:00Z moment 2030-01-01T00:00:00Z
  [2]

A snapshot that doesn't list the targets file, one that is listed with no digest that is known, and listings of version 0 and 1.0.
  $ make
  > @wide
  > write root 1 1
  > write targets 1 4
  > forget targets
  > write snapshot 1 3
  > write timestamp 1 2
  $ init old
  root 1
  $ verify old new --why
  root 1
  end targets NotListed
  why snapshot 1 names 0
  [2]
  $ change metadata/timestamp.json 2
  > "hashes":{...}
  > "hashes":{"md5":""}
  $ verify old new --why
  root 1
  end snapshot NoKnownHash
  why file "snapshot.json" 2794
  [2]
  $ change metadata/timestamp.json 2
  > "version":1}
  > "version":0}
  $ verify old new --why
  root 1
  end timestamp Malformed
  why file "timestamp.json" 2858
  why form
  [2]
  $ change metadata/timestamp.json
  > "version":0}
  > "version":1.0}
  $ verify old new --why
  root 1
  end timestamp Malformed
  why file "timestamp.json" 2860
  why float
  [2]

Lower versions, a name that is gone, and an expired timestamp.
  $ make
  > @keys
  > write root 1 1
  > write targets 2 4
  > delegate targets a 1 4 go paths x
  > write a 3 4
  > write snapshot 2 3
  > write timestamp 2 2
  $ init one
  root 1
  $ verify one two --why
  root 1
  end ready
  $ make
  > @keys
  > write targets 1 4
  > write snapshot 1 3
  > write timestamp 1 2
  $ verify two three --why
  root 1
  end timestamp Rollback
  why file "timestamp.json" 5037
  why version 1 trusted 2
  why snapshot 1 trusted 2
  [2]
  $ make
  > @keys
  > write targets 1 4
  > write snapshot 3 3
  > write timestamp 3 2
  $ verify two three --why
  root 1
  end snapshot Rollback
  why file "snapshot.json" 5035
  why name "a.json" gone
  why name "targets.json" 1 trusted 2
  [2]
  $ make
  > @keys
  > write targets 2 4
  > write snapshot 3 3
  > expires 2026-01-01T00:00:00Z
  > write timestamp 3 2
  $ verify two three --why
  root 1
  end timestamp Expired
  why file "timestamp.json" 5037
  why expires 2026-01-01T00:00:00Z moment 2026-01-01T00:00:00Z
  [2]

The lines of `replay`, after each end.
  $ tufcheck replay --why --state two --now 2026-01-01T00:00:00Z --out three abc.txt . .
  cycle 1
  root 1
  end timestamp Expired
  why file "timestamp.json" 5037
  why expires 2026-01-01T00:00:00Z moment 2026-01-01T00:00:00Z
  no "abc.txt" NotSearched
  cycle 2
  root 1
  end timestamp Expired
  why file "timestamp.json" 5037
  why expires 2026-01-01T00:00:00Z moment 2026-01-01T00:00:00Z
  no "abc.txt" NotSearched
  [2]

A target's file that is absent, one of other bytes, and one that is longer than listed. A path that no role lists has no such line.
  $ make
  > @keys
  > target targets b 62 both
  > target targets d/e 6465 sha256
  > write root 1 1
  > @files
  $ init old
  root 1
  $ remove targets/abc.txt
  $ put targets/b
  > c
  $ put targets/d/e
  > longer
  $ verify old new --why abc.txt b gone d/e
  root 1
  end ready
  no "abc.txt" Missing
  why absent "abc.txt"
  no "b" HashWrong
  why file "b" 1
  why sha256 2e7d2c03a9507ae265ecf5b5356885a53393a2029d241394997265a1a25aefc6 listed 3e23e8160039594a33894f6564e1b1348bbd7a0088d42c4acb73eeaed59c009d
  why sha512 acc28db2beb7b42baa1cb0243d401ccb4e3fce44d7b02879a52799aadff541522d8822598b2fa664f9d5156c00c924805d75c3868bd56c2acb81d37e98e35adc listed 5267768822ee624d48fce15ec5ca79cbd602cb7f4c2157a516556991f22ef8c7b5ef7b18d1ff41c59370efb0858651d44a936c11b7b144c48fe04df3c6a3e8da
  no "gone" NotFound
  no "d/e" LengthWrong
  why file "d/e" 3
  why length 3 listed 2
  [1]

The same with copies, where an accepted target has none. Then in each cycle of `replay`.
  $ put targets/b
  > b
  $ folder copies/b
  $ verify old new --why --into copies abc.txt b d/e
  root 1
  end ready
  no "abc.txt" Missing
  why absent "abc.txt"
  no "b" NoPlace
  no "d/e" LengthWrong
  why file "d/e" 3
  why length 3 listed 2
  [1]
  $ put targets/abc.txt
  > ab
  $ tufcheck replay --why --state old --now 2026-01-01T00:00:00Z --out new abc.txt . .
  cycle 1
  root 1
  end ready
  no "abc.txt" LengthWrong
  why file "abc.txt" 2
  why length 2 listed 3
  cycle 2
  root 1
  end ready
  no "abc.txt" LengthWrong
  why file "abc.txt" 2
  why length 2 listed 3
  [1]

Under consistent names each name that was looked up, and then the file that is there.
  $ make
  > @keys
  > consistent yes
  > delegate targets a 1 4 go paths r
  > target a r 72 sha512
  > target targets d/b 62 both
  > write a 3 4
  > write root 1 1
  > @files
  $ init old
  root 1
  $ remove targets/d/3e23e8160039594a33894f6564e1b1348bbd7a0088d42c4acb73eeaed59c009d.b
  $ remove targets/a882f0ac848b0b6b4ca7b42bfa1d266afd0ddeba9204ae57a984a69376d59816b1ef3f4d442ea8a70396067ff5b70e0ae8eab3935b617b8e366d8e35c3bfe14c.r
  $ verify old new --why r d/b
  root 1
  end ready
  role "a" 3
  no "r" Missing
  why absent "a882f0ac848b0b6b4ca7b42bfa1d266afd0ddeba9204ae57a984a69376d59816b1ef3f4d442ea8a70396067ff5b70e0ae8eab3935b617b8e366d8e35c3bfe14c.r"
  no "d/b" Missing
  why absent "d/3e23e8160039594a33894f6564e1b1348bbd7a0088d42c4acb73eeaed59c009d.b"
  why absent "d/5267768822ee624d48fce15ec5ca79cbd602cb7f4c2157a516556991f22ef8c7b5ef7b18d1ff41c59370efb0858651d44a936c11b7b144c48fe04df3c6a3e8da.b"
  [1]
  $ put targets/d/5267768822ee624d48fce15ec5ca79cbd602cb7f4c2157a516556991f22ef8c7b5ef7b18d1ff41c59370efb0858651d44a936c11b7b144c48fe04df3c6a3e8da.b
  > c
  $ verify old new --why d/b
  root 1
  end ready
  no "d/b" HashWrong
  why file "d/5267768822ee624d48fce15ec5ca79cbd602cb7f4c2157a516556991f22ef8c7b5ef7b18d1ff41c59370efb0858651d44a936c11b7b144c48fe04df3c6a3e8da.b" 1
  why sha256 2e7d2c03a9507ae265ecf5b5356885a53393a2029d241394997265a1a25aefc6 listed 3e23e8160039594a33894f6564e1b1348bbd7a0088d42c4acb73eeaed59c009d
  why sha512 acc28db2beb7b42baa1cb0243d401ccb4e3fce44d7b02879a52799aadff541522d8822598b2fa664f9d5156c00c924805d75c3868bd56c2acb81d37e98e35adc listed 5267768822ee624d48fce15ec5ca79cbd602cb7f4c2157a516556991f22ef8c7b5ef7b18d1ff41c59370efb0858651d44a936c11b7b144c48fe04df3c6a3e8da
  [1]

A wrong digest in capitals beside a right one, and no digest that is known.
  $ make
  > @wide
  > write root 1 1
  > @files
  $ init old
  root 1
  $ change metadata/timestamp.json 2
  > "hashes":{..."version":1}
  > "version":1}
  $ change metadata/snapshot.json 3
  > "hashes":{..."version":1}
  > "version":1}
  $ change metadata/targets.json 4
  > "hashes":{...}
  > "hashes":{"sha256":"ABABABABABABABABABABABABABABABABABABABABABABABABABABABABABABABAB","sha512":"ddaf35a193617abacc417349ae20413112e6fa4e89a97ea20a9eeee64b55d39a2192992a274fc1a836ba3c23a3feebbd454d4423643ce80e2a9ac94fa54ca49f"}
  $ verify old new --why abc.txt
  root 1
  end ready
  no "abc.txt" HashWrong
  why file "abc.txt" 3
  why sha256 ba7816bf8f01cfea414140de5dae2223b00361a396177a9cb410ff61f20015ad listed abababababababababababababababababababababababababababababababab
  [1]
  $ change metadata/targets.json 4
  > "hashes":{...}
  > "hashes":{"md5":""}
  $ verify old new --why abc.txt
  root 1
  end ready
  no "abc.txt" NoKnownHash
  why file "abc.txt" 3
  [1]
