"use strict";
// The scenarios of the gate, as crates/simplex_world/stdin has them: tools/check-page --write writes this file.
const PRESETS =
  "# Seven members, two of whom lie; the network loses and repeats, and two members crash inside a write.\n" +
  "members 7\n" +
  "seed 42\n" +
  "views 12\n" +
  "delay 5 60\n" +
  "lose 50\n" +
  "repeat 50\n" +
  "lie 5 two-votes\n" +
  "lie 6 two-proposals\n" +
  "crash 1 4 3 300\n" +
  "crash 2 7 6 1000\n" +
  "run\n" +
  "# Three of seven lie, one more than may: for half a minute they keep the others in two halves that don't hear each other, and vote on\n" +
  "# each side for what that side votes for. Proposals that contradict each other become final, and the audit names the three.\n" +
  "members 7\n" +
  "seed 7\n" +
  "views 12\n" +
  "until 60000\n" +
  "lie 4 two-faced two-proposals\n" +
  "lie 5 two-faced two-proposals\n" +
  "lie 6 two-faced two-proposals\n" +
  "cut 0 30000 0,2\n" +
  "lines some\n" +
  "run\n" +
  "# scenario 0\n" +
  "members 7\n" +
  "seed 128114358\n" +
  "views 10\n" +
  "until 900000\n" +
  "delay 5 155\n" +
  "doubt 200\n" +
  "keep 3\n" +
  "lie 0 forged\n" +
  "lie 1 two-proposals two-votes\n" +
  "lines none\n" +
  "run\n" +
  "# scenario 1\n" +
  "members 4\n" +
  "seed 944357760\n" +
  "views 5\n" +
  "until 900000\n" +
  "delay 20 60\n" +
  "lose 100\n" +
  "keep 10\n" +
  "lie 3 silent\n" +
  "lines none\n" +
  "run\n" +
  "# scenario 2\n" +
  "members 7\n" +
  "seed 856779707\n" +
  "views 10\n" +
  "until 900000\n" +
  "delay 1 6\n" +
  "lose 200\n" +
  "repeat 200\n" +
  "skip 3000\n" +
  "keep 10\n" +
  "lie 0 two-faced\n" +
  "lie 1 withheld\n" +
  "lines none\n" +
  "run\n" +
  "# scenario 3\n" +
  "members 10\n" +
  "seed 712314367\n" +
  "views 20\n" +
  "until 900000\n" +
  "delay 5 45\n" +
  "lose 200\n" +
  "term 3 6000 0\n" +
  "keep 10\n" +
  "lie 2 two-proposals\n" +
  "lie 5 two-proposals\n" +
  "lie 6 forged\n" +
  "lines none\n" +
  "run\n" +
  "# scenario 4\n" +
  "members 7\n" +
  "seed 715471172\n" +
  "views 40\n" +
  "until 900000\n" +
  "delay 20 60\n" +
  "lose 10\n" +
  "repeat 20\n" +
  "term 2 6000 3\n" +
  "keep 10\n" +
  "crash 0 3 12 50\n" +
  "crash 6 7 21 1000\n" +
  "crash 3 28 20 1\n" +
  "crash 1 29 1 1000\n" +
  "lines none\n" +
  "run\n" +
  "# scenario 5\n" +
  "members 4\n" +
  "seed 488227185\n" +
  "views 20\n" +
  "until 900000\n" +
  "delay 1 6\n" +
  "repeat 200\n" +
  "keep 3\n" +
  "lie 3 two-proposals\n" +
  "crash 2 12 13 1\n" +
  "lines none\n" +
  "run\n" +
  "# scenario 6\n" +
  "members 5\n" +
  "seed 983406251\n" +
  "views 5\n" +
  "until 900000\n" +
  "delay 1 6\n" +
  "lose 50\n" +
  "keep 1\n" +
  "lie 0 forged two-faced\n" +
  "lines none\n" +
  "run\n" +
  "# scenario 7\n" +
  "members 10\n" +
  "seed 556213530\n" +
  "views 10\n" +
  "until 900000\n" +
  "delay 20 60\n" +
  "term 5 3000 3\n" +
  "keep 10\n" +
  "lie 0 two-votes\n" +
  "crash 1 10 10 1\n" +
  "lines none\n" +
  "run\n" +
  "# scenario 8\n" +
  "members 6\n" +
  "seed 897836407\n" +
  "views 40\n" +
  "until 900000\n" +
  "delay 20 25\n" +
  "repeat 20\n" +
  "term 2 3000 1\n" +
  "keep 1\n" +
  "cut 4172 6172 1\n" +
  "lines none\n" +
  "run\n" +
  "# scenario 9\n" +
  "members 10\n" +
  "seed 778211778\n" +
  "views 5\n" +
  "until 900000\n" +
  "delay 20 25\n" +
  "lose 100\n" +
  "repeat 20\n" +
  "doubt 50\n" +
  "keep 1\n" +
  "lie 4 withheld two-proposals\n" +
  "cut 3648 4148 8\n" +
  "cut 3084 3584 0,1,2,3,4,5,7,8,9\n" +
  "lines none\n" +
  "run\n" +
  "# scenario 10\n" +
  "members 6\n" +
  "seed 847840225\n" +
  "views 20\n" +
  "until 900000\n" +
  "delay 20 170\n" +
  "lose 10\n" +
  "term 3 6000 1\n" +
  "keep 10\n" +
  "crash 2 1 9 50\n" +
  "cut 3375 5375 1,3,4,5\n" +
  "cut 3136 11136 0,3,4,5\n" +
  "lines none\n" +
  "run\n" +
  "# scenario 11\n" +
  "members 7\n" +
  "seed 844046184\n" +
  "views 20\n" +
  "until 900000\n" +
  "delay 1 41\n" +
  "lose 100\n" +
  "repeat 200\n" +
  "keep 3\n" +
  "lie 1 two-proposals\n" +
  "lie 3 two-faced\n" +
  "lines none\n" +
  "run\n" +
  "# scenario 0\n" +
  "members 10\n" +
  "seed 659197084\n" +
  "views 20\n" +
  "until 60000\n" +
  "delay 20 25\n" +
  "lose 10\n" +
  "repeat 20\n" +
  "keep 10\n" +
  "lie 0 silent\n" +
  "lie 2 two-faced two-proposals\n" +
  "lie 3 two-votes two-proposals\n" +
  "lie 5 two-faced two-proposals\n" +
  "lie 6 two-faced two-proposals\n" +
  "lie 8 two-votes\n" +
  "cut 4174 12174 0,2,4,6,8\n" +
  "cut 3015 3515 0,2,4,6,8\n" +
  "cut 3593 4093 1,6,7\n" +
  "lines none\n" +
  "run\n" +
  "# scenario 1\n" +
  "members 10\n" +
  "seed 212481029\n" +
  "views 5\n" +
  "until 60000\n" +
  "delay 5 155\n" +
  "repeat 20\n" +
  "keep 10\n" +
  "lie 1 two-faced\n" +
  "lie 2 two-votes\n" +
  "lie 3 two-faced two-proposals\n" +
  "lie 4 withheld\n" +
  "lie 7 two-faced two-proposals\n" +
  "lie 8 two-faced two-proposals\n" +
  "cut 2439 10439 0,2,4,6,8\n" +
  "cut 898 2898 0,2,4,6,8\n" +
  "cut 1819 2319 1,2,3,7,8\n" +
  "lines none\n" +
  "run\n" +
  "# scenario 2\n" +
  "members 7\n" +
  "seed 713569369\n" +
  "views 10\n" +
  "until 60000\n" +
  "delay 5 155\n" +
  "repeat 20\n" +
  "keep 3\n" +
  "lie 0 two-faced two-proposals\n" +
  "lie 2 two-faced two-proposals\n" +
  "lie 5 two-faced two-proposals\n" +
  "crash 4 4 16 4000\n" +
  "crash 4 7 17 50\n" +
  "cut 4384 6384 0,2,4,6\n" +
  "lines none\n" +
  "run\n" +
  "# scenario 3\n" +
  "members 4\n" +
  "seed 862131889\n" +
  "views 10\n" +
  "until 60000\n" +
  "delay 20 170\n" +
  "repeat 20\n" +
  "doubt 200\n" +
  "term 3 3000 1\n" +
  "keep 10\n" +
  "lie 0 two-faced two-proposals\n" +
  "lie 1 two-faced two-proposals\n" +
  "crash 3 1 12 50\n" +
  "crash 3 7 3 50\n" +
  "cut 1307 3307 1\n" +
  "cut 3367 5367 0,2\n" +
  "cut 1753 9753 0,2\n" +
  "lines none\n" +
  "run\n" +
  "# scenario 4\n" +
  "members 4\n" +
  "seed 894596997\n" +
  "views 20\n" +
  "until 60000\n" +
  "delay 1 41\n" +
  "term 2 3000 3\n" +
  "keep 10\n" +
  "lie 0 two-proposals\n" +
  "lie 2 silent\n" +
  "cut 1919 2419 0,2\n" +
  "cut 3675 5675 0,2\n" +
  "lines none\n" +
  "run\n" +
  "# scenario 5\n" +
  "members 7\n" +
  "seed 446441385\n" +
  "views 20\n" +
  "until 60000\n" +
  "delay 5 155\n" +
  "repeat 200\n" +
  "keep 3\n" +
  "lie 0 two-faced two-proposals\n" +
  "lie 2 two-votes\n" +
  "lie 3 two-faced two-proposals\n" +
  "crash 6 20 18 1\n" +
  "crash 1 18 2 1\n" +
  "cut 1594 3594 0,2,4,6\n" +
  "lines none\n" +
  "run\n" +
  "# Four members, one dead at a time: one from the first moment on, and again later, another in between. Who comes back catches up.\n" +
  "members 4\n" +
  "seed 5\n" +
  "views 24\n" +
  "down 1 0 700\n" +
  "down 2 900 1600\n" +
  "down 1 1700 2300\n" +
  "lines some\n" +
  "run\n" +
  "# Seven members, one of whom lies: one crashes inside a write, and is killed before it is opened; another is dead for two times on end.\n" +
  "members 7\n" +
  "seed 3\n" +
  "views 30\n" +
  "lose 50\n" +
  "lie 6 withheld\n" +
  "crash 2 4 3 400\n" +
  "down 2 300 1500\n" +
  "down 4 500 1000\n" +
  "down 4 1000 1800\n" +
  "lines some\n" +
  "run\n" +
  "# Four members, two of whom are dead for twelve seconds: the others are no quorum, and their hosts wait twice as long each time.\n" +
  "members 4\n" +
  "seed 9\n" +
  "views 8\n" +
  "down 2 100 12000\n" +
  "down 3 150 12100\n" +
  "reopen 1000\n" +
  "lines some\n" +
  "run\n" +
  "# Four members, one dead for good, and of a thousand packets 300 are lost. Nodes ask once: behind view 33 nobody enters one any more.\n" +
  "members 4\n" +
  "seed 154\n" +
  "views 66\n" +
  "until 120000\n" +
  "lose 300\n" +
  "term 4 10000 2\n" +
  "repair once 0\n" +
  "down 3 0 1000000000\n" +
  "lines some\n" +
  "run\n" +
  "# The same, with hosts that open a record again behind five seconds without a view: the committee gets on.\n" +
  "members 4\n" +
  "seed 154\n" +
  "views 66\n" +
  "until 120000\n" +
  "lose 300\n" +
  "term 4 10000 2\n" +
  "repair once 0\n" +
  "down 3 0 1000000000\n" +
  "reopen 5000\n" +
  "lines some\n" +
  "run\n" +
  "# The same without such hosts, and nodes that ask again with each repeated vote, for four views at once: the committee gets on too.\n" +
  "members 4\n" +
  "seed 154\n" +
  "views 66\n" +
  "until 120000\n" +
  "lose 300\n" +
  "term 4 10000 2\n" +
  "repair with-nullify 4\n" +
  "down 3 0 1000000000\n" +
  "lines some\n" +
  "run\n" +
  "# Four members in terms of two views, and a network that loses: each record is rewritten behind three views that became final.\n" +
  "members 4\n" +
  "seed 11\n" +
  "views 20\n" +
  "lose 50\n" +
  "term 2 3000 1\n" +
  "rewrite 3\n" +
  "lines some\n" +
  "run\n" +
  "# Seven members, one of whom is dead for two times: records are rewritten behind two final views, and it opens what is left of its own.\n" +
  "members 7\n" +
  "seed 12\n" +
  "views 24\n" +
  "down 3 400 900\n" +
  "down 3 1200 1500\n" +
  "rewrite 2\n" +
  "lines some\n" +
  "run\n" +
  "# Four members, one of whom crashes inside a rewrite of its record: it finds the one from before, and rewrites that.\n" +
  "members 4\n" +
  "seed 21\n" +
  "views 16\n" +
  "crash 2 2 57 300\n" +
  "rewrite 3\n" +
  "lines some\n" +
  "run\n" +
  "# Four members, one of whom joins late, from what is final by then, and is killed later; the network loses.\n" +
  "members 4\n" +
  "seed 31\n" +
  "views 24\n" +
  "lose 50\n" +
  "join 3 1500\n" +
  "down 3 1800 2600\n" +
  "lines some\n" +
  "run\n" +
  "# Seven members, one of whom lies, and records are rewritten. One joins before anything is final, and starts from genesis; another crashes\n" +
  "# inside its first opening, and starts from the same finalization again.\n" +
  "members 7\n" +
  "seed 32\n" +
  "views 16\n" +
  "lie 6 withheld\n" +
  "join 2 1\n" +
  "join 5 600\n" +
  "crash 5 0 10 300\n" +
  "rewrite 2\n" +
  "lines some\n" +
  "run\n";
