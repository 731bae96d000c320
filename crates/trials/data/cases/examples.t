The scripts of the folder examples, without their comments. What is printed and stored is the same by any number of
workers.

first.script: the least repository.
  $ make
  > key 1 5
  > key 2 5
  > key 3 5
  > key 4 5
  > top root 1 1
  > top timestamp 1 2
  > top snapshot 1 3
  > top targets 1 4
  > target targets abc.txt 616263 sha256
  > write root 1 1
  > write targets 1 4
  > write snapshot 1 3
  > write timestamp 1 2
  $ digests
  metadata/1.root.json 704b0152c83d36ffc04333e41e0cd29edc0bab40758c66f515fc9299813c1865
  metadata/snapshot.json 61be2e3403357ff5d1486309d01fc7ffc184efa831922452f797a9e6fb123ceb
  metadata/targets.json b359fb202e70ad84955c532f5dc40b249ca9290c1790e8b6288e790c09680b2c
  metadata/timestamp.json ce299362a7fbe31f44e31da28a46d7327e2de5ee00699a0886f22efbcd282453
  targets/abc.txt ba7816bf8f01cfea414140de5dae2223b00361a396177a9cb410ff61f20015ad
  $ init old
  root 1
  $ by 0,1,4,8,64 old new abc.txt
  root 1
  end ready
  ok "abc.txt" 3 "targets"

rotation.script: three roots that follow one another, with new keys.
  $ make
  > key 1 5
  > key 2 5
  > key 3 5
  > key 4 5
  > top root 1 1
  > top timestamp 1 2
  > top snapshot 1 3
  > top targets 1 4
  > write root 1 1
  > key 5 5
  > top root 1 5
  > write root 2 1,5
  > key 6 5
  > key 7 5
  > top timestamp 1 6
  > top snapshot 1 7
  > write root 3 5
  > target targets abc.txt 616263 sha256
  > write targets 1 4
  > write snapshot 1 7
  > write timestamp 1 6
  $ digests
  metadata/1.root.json 704b0152c83d36ffc04333e41e0cd29edc0bab40758c66f515fc9299813c1865
  metadata/2.root.json 5aefa6bdfd72d94adacdd7e0bfe3b19f6638663893b270786cae5ae8cd01ba1f
  metadata/3.root.json feb547b17e3c4dd6dcfd7b99012a28dba5f69be1664ec242d1371c38a93b730e
  metadata/snapshot.json aa29fdfd7b79f9df80b94190d0eb9e6306ffcc6515a7180562ca081e37a045c9
  metadata/targets.json b359fb202e70ad84955c532f5dc40b249ca9290c1790e8b6288e790c09680b2c
  metadata/timestamp.json 3bb036ffb83b4304872da1e669049e6c3b7361095b67bb9c58e91af9f19c90b8
  targets/abc.txt ba7816bf8f01cfea414140de5dae2223b00361a396177a9cb410ff61f20015ad
  $ init old
  root 1
  $ by 0,1,4,8,64 old new abc.txt
  root 3
  end ready
  ok "abc.txt" 3 "targets"

delegations.script: delegated roles, by patterns and by prefixes.
  $ make
  > key 1 5
  > key 2 5
  > key 3 5
  > key 4 5
  > key 5 5
  > key 6 5
  > key 7 5
  > key 8 5
  > key 9 5
  > top root 1 1
  > top timestamp 1 2
  > top snapshot 1 3
  > top targets 1 4
  > write root 1 1
  > delegate targets apps 2 5,6,7 go paths apps/*,apps/*/*
  > delegate apps web 1 8 stop paths apps/web/*
  > delegate targets rest 1 9 go prefixes 0,1,2,3,4,5,6,7
  > target targets abc.txt 616263 sha256
  > target apps apps/game 67616d65 sha256
  > target web apps/web/a.js 2f2f sha512
  > target rest faq.txt 72656164 both
  > write web 1 8
  > write apps 1 5,7
  > write rest 1 9
  > write targets 1 4
  > write snapshot 1 3
  > write timestamp 1 2
  $ digests
  metadata/1.root.json 704b0152c83d36ffc04333e41e0cd29edc0bab40758c66f515fc9299813c1865
  metadata/apps.json 9b551a061c7709dcdeeae778eaf889129dc082743f889583ac70172a079665a3
  metadata/rest.json 961ee06f3a1679624d5c668779264d9a51ff9f43e3614cdda725a04b12d8bb27
  metadata/snapshot.json 59330bf68f7fa868dceefccaa0991caf0a26df9344d4b8a24f90c5b45cd38c47
  metadata/targets.json 2d02ca20a165ac29ae61630a063237f22a58e81c97ccc5d248d40b2c40857f14
  metadata/timestamp.json 20ef400d4fd8ec38cfd612c5fd1a693ad2a06db66c39d50506c8367ca2c52ecf
  metadata/web.json 775f7f6cfe499a5a4343c446fd856b4881b1bcf28b13774b109efe79536fdac1
  targets/abc.txt ba7816bf8f01cfea414140de5dae2223b00361a396177a9cb410ff61f20015ad
  targets/apps/game 6ca5cab77e702c787b4c14b3d3bf26bad43da606be6eed04ab0b9720120ae081
  targets/apps/web/a.js a2c2339691fc48fbd14fb307292dff3e21222712d9240810742d7df0c6d74dfb
  targets/faq.txt 3316348dbadfb7b11c7c2ea235949419e23f9fa898ad2c198f999617912a9925
  $ init old
  root 1
  $ by 0,1,4,8,64 old new apps/game apps/web/a.js faq.txt
  root 1
  end ready
  role "apps" 1
  role "rest" 1
  role "web" 1
  ok "apps/game" 4 "apps"
  ok "apps/web/a.js" 2 "web"
  ok "faq.txt" 4 "rest"

consistent.script: names under consistent snapshots.
  $ make
  > key 1 5
  > key 2 5
  > key 3 5
  > key 4 5
  > consistent yes
  > top root 1 1
  > top timestamp 1 2
  > top snapshot 1 3
  > top targets 1 4
  > write root 1 1
  > target targets abc.txt 616263 sha256
  > write targets 1 4
  > write snapshot 1 3
  > write timestamp 1 2
  > target targets abc.txt 61626364 both
  > target targets docs/read.me 72656164 sha512
  > write targets 2 4
  > write snapshot 2 3
  > write timestamp 2 2
  $ digests
  metadata/1.root.json 4511eccaae1456ee3a37680a9406c8e8b8507beb43a763d5a0f1ec1800598021
  metadata/1.snapshot.json 61be2e3403357ff5d1486309d01fc7ffc184efa831922452f797a9e6fb123ceb
  metadata/1.targets.json b359fb202e70ad84955c532f5dc40b249ca9290c1790e8b6288e790c09680b2c
  metadata/2.snapshot.json 59ef39085c1d6d5670535d3aca4a7323f7e9f330ff022ac6a9d15769145c58de
  metadata/2.targets.json 2532fa2c47f7082c06c3529d6135a0e5188a833baefe3f1c13ef4cc316039891
  metadata/timestamp.json b7262db9db7311e422e1e2c04c323ed7f6ad1fef44121b10386923cfac223f1f
  targets/88d4266fd4e6338d13b845fcf289579d209c897823b9217da3e161936f031589.abc.txt 88d4266fd4e6338d13b845fcf289579d209c897823b9217da3e161936f031589
  targets/ba7816bf8f01cfea414140de5dae2223b00361a396177a9cb410ff61f20015ad.abc.txt ba7816bf8f01cfea414140de5dae2223b00361a396177a9cb410ff61f20015ad
  targets/docs/ee021c5aa94c55f1dbbe287200618d386799f21ce4e35af71c9e7474267ebaf5fde5436ea44d689c8abd9dbb24e76da9493f982453cad987d1ca003f9eb9ef34.read.me 3316348dbadfb7b11c7c2ea235949419e23f9fa898ad2c198f999617912a9925
  $ init old
  root 1
  $ by 0,1,4,8,64 old new abc.txt docs/read.me
  root 1
  end ready
  ok "abc.txt" 4 "targets"
  ok "docs/read.me" 4 "targets"

compromised.script: what a thief of the keys of timestamp and snapshot can't do.
  $ make
  > key 1 5
  > key 2 5
  > key 3 5
  > key 4 5
  > key 9 5
  > top root 1 1
  > top timestamp 1 2
  > top snapshot 1 3
  > top targets 1 4
  > write root 1 1
  > target targets abc.txt 616263 sha256
  > write targets 1 4
  > write snapshot 1 3
  > write timestamp 1 2
  > target targets abc.txt 6576696c sha256
  > write targets 2 9
  > write snapshot 2 3
  > write timestamp 2 2
  $ digests
  metadata/1.root.json 704b0152c83d36ffc04333e41e0cd29edc0bab40758c66f515fc9299813c1865
  metadata/snapshot.json 8b3c0cf7a186b139e9aab4b368155e02439df3c59e3ef27e11a9e9b7c86ba23b
  metadata/targets.json 9e094bc0ca33aa68d4481e7960992a505f63f02b3a755435f826addd198d29d5
  metadata/timestamp.json 11bb3d21bc48cea5a8f5b69def76ca82a42f7f92db386941f78c1b41e1666294
  targets/abc.txt b5c1fb2efc6d6b4674c2fdcc48ce01b43a3b7c03763c0c3355de0099ee0f8c73
  $ init old
  root 1
  $ by 0,1,4,8,64 old new abc.txt
  root 1
  end targets Unsigned
  no "abc.txt" NotSearched
  [2]

rollback.1.script and rollback.2.script: a client that took the first repository refuses the second.
  $ make
  > key 1 5
  > key 2 5
  > key 3 5
  > key 4 5
  > top root 1 1
  > top timestamp 1 2
  > top snapshot 1 3
  > top targets 1 4
  > write root 1 1
  > target targets abc.txt 616263 sha256
  > write targets 2 4
  > write snapshot 2 3
  > write timestamp 2 2
  $ digests
  metadata/1.root.json 704b0152c83d36ffc04333e41e0cd29edc0bab40758c66f515fc9299813c1865
  metadata/snapshot.json 2a2e11151b9c278295ffa20506dad3454bdb98d10289fd6f34c8d82e30dc7e4d
  metadata/targets.json 0380bc53a5c0bb214579daba3ef5f31f43964499932092e1738931b41d319f0a
  metadata/timestamp.json fa7a40d4c45ae06fb32bbc2e1b38f12e628dd03754c6df25422119d0661e6ba0
  targets/abc.txt ba7816bf8f01cfea414140de5dae2223b00361a396177a9cb410ff61f20015ad
  $ init one
  root 1
  $ by 0,1,4,8,64 one two abc.txt
  root 1
  end ready
  ok "abc.txt" 3 "targets"
  $ make
  > key 1 5
  > key 2 5
  > key 3 5
  > key 4 5
  > top root 1 1
  > top timestamp 1 2
  > top snapshot 1 3
  > top targets 1 4
  > write root 1 1
  > target targets abc.txt 616264 sha256
  > write targets 1 4
  > write snapshot 1 3
  > write timestamp 1 2
  $ digests
  metadata/1.root.json 704b0152c83d36ffc04333e41e0cd29edc0bab40758c66f515fc9299813c1865
  metadata/snapshot.json ab441e858946dcdee2da1f5ddd0e4caba9fc6d727f9bc7c60eb74652da1c570f
  metadata/targets.json 93ae3cbf6bd09e9831d1188bac8e28ab03582c00f81863c901c144e38fc7bd45
  metadata/timestamp.json e8add154302fd64a112ba001b184d7f16d0a856bbbae3417bd99a2de420e1fdb
  targets/abc.txt a52d159f262b2c6ddb724a61840befc36eb30c88877a4030b65cbe86298449c9
  $ by 0,1,4,8,64 two three abc.txt
  root 1
  end timestamp Rollback
  no "abc.txt" NotSearched
  [2]
A client that begins anew takes it.
  $ init one
  root 1
  $ by 0,1,4,8,64 one two abc.txt
  root 1
  end ready
  ok "abc.txt" 3 "targets"

bins.script: sixteen hash bins. A path that no bin lists is nowhere.
  $ make
  > key 1 5
  > key 2 5
  > key 3 5
  > key 4 5
  > key 5 5
  > top root 1 1
  > top timestamp 1 2
  > top snapshot 1 3
  > top targets 1 4
  > write root 1 1
  > succinct targets 1 5 4 bin
  > target bin-6 abc.txt 616263 sha256
  > target bin-5 docs/hello 6869 sha256
  > target bin-3 faq.txt 72656164 sha256
  > target bin-9 apps/game 67616d65 sha256
  > target bin-7 readme 6d65 sha256
  > write bin-0 1 5
  > write bin-1 1 5
  > write bin-2 1 5
  > write bin-3 1 5
  > write bin-4 1 5
  > write bin-5 1 5
  > write bin-6 1 5
  > write bin-7 1 5
  > write bin-8 1 5
  > write bin-9 1 5
  > write bin-a 1 5
  > write bin-b 1 5
  > write bin-c 1 5
  > write bin-d 1 5
  > write bin-e 1 5
  > write bin-f 1 5
  > write targets 1 4
  > write snapshot 1 3
  > write timestamp 1 2
  $ init one
  root 1
  $ by 0,1,4,8,64 one two abc.txt docs/hello faq.txt apps/game readme none
  root 1
  end ready
  role "bin-1" 1
  role "bin-3" 1
  role "bin-5" 1
  role "bin-6" 1
  role "bin-7" 1
  role "bin-9" 1
  ok "abc.txt" 3 "bin-6"
  ok "docs/hello" 2 "bin-5"
  ok "faq.txt" 4 "bin-3"
  ok "apps/game" 4 "bin-9"
  ok "readme" 2 "bin-7"
  no "none" NotFound
  [1]
