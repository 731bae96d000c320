What a script makes whose lines replace and forget. The SHA-256 of each file is from a program that
shares no code with this one.
  $ make
  > # A comment, an empty line, a repeated target, an empty target, and roles forgotten.
  >
  > key 1 5
  > key 200 5
  > expires 2031-02-03T04:05:06Z
  > top targets 2 1
  > top targets 2 200,1,1
  > top snapshot 1 1
  > target targets a/b.txt 6162 both
  > #
  > target targets a/b.txt 4a4B sha512
  > target targets empty - sha256
  > delegate targets one 1 - stop paths a?c,[x],,b*
  > delegate one targets 9223372036854775807 200 go prefixes zz
  > target one x 00fF both
  > write one 5 1
  > write targets 3 1,1
  > write snapshot 7 -
  > forget targets
  > consistent yes
  > target one x 00ff sha256
  > write snapshot 9223372036854775807 200
  > write targets 4 200
  > forget one
  > write snapshot 8 200
  $ digests
  metadata/4.targets.json e3eccd39b6682edd910ad65b020bb12b3ffff91a21fcc0daa56d9c57014df775
  metadata/8.snapshot.json e09f70f395e680b2b6ca4796a8912fd4db8bc71a2ed74643532974699b8eb8b0
  metadata/9223372036854775807.snapshot.json ab9b71972b2ee526b43c6301c7d15a41125a5fa5a76e2f03ecb23435c333a564
  metadata/one.json 9c5a7ffa5732d384a21a9b122b817a3f7f6f4fb7ca21c78a1737ae4d043108ab
  metadata/snapshot.json 450c9c26236bc1817674cf484434cce634731b470773524c2c1260d9ebdf23a1
  metadata/targets.json 3dd44048fdaf03698397bf87e28c21bd947074cb5d554c9455465d567038a4da
  targets/06eb7d6a69ee19e5fbdf749018d3d2abfa04bcbd1365db312eb86dc7169389b8.x 06eb7d6a69ee19e5fbdf749018d3d2abfa04bcbd1365db312eb86dc7169389b8
  targets/a/b.txt 08cf51fe8f3e7b9c9b08f6ae4803831975d480e39bc806ed7c8120fd66d8086d
  targets/empty e3b0c44298fc1c149afbf4c8996fb92427ae41e4649b934ca495991b7852b855
  targets/x 06eb7d6a69ee19e5fbdf749018d3d2abfa04bcbd1365db312eb86dc7169389b8
