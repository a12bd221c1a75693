"""A plain slow model of one member's node: what it may do next, by going over all that happened to it.

Nothing here is taken from the node's code. Read in this order:

    positions        terms, what a nullification covers, windows
    values           what is voted, certified, recorded, handed in and handed out
    codec            how values are spelled as bytes, and read
    scheme           who signed what, and what certifies
    setup            what stays the same from an opening on
    history          points: what happened and what the node did; questions that go over them
    record           what points record, what a record says, which records are lawful
    view             what happened to one view: the proposal it holds, its votes, its deadlines
    voter            all views: which is current, who leads, what a proposal may stand on
    due              which votes are due, and what is to be asked for
    votes_of_a_view  the votes of one view: which are accepted, what they certify
    repair           which views are to be repaired, what is served to others
    asked            which requests stand
    refusals         the sixteen tests of an event
    deeds            what a point hands out
    acts             which acts may come next
    doings           what acts do, and how much of it there can be behind one event
    member           steps, openings and rewrites: whether a reply is allowed; what a crash may leave
    disks            one disk or two: which is read, and what a rewrite writes where
    player           a node that does what is due, in an order that a seed picks
    in_order         such a node that does it in the order of the product's
    words, judging   cases as text, and what the model says of them
    peers            what comes to a node in generated scripts
    lives            generated lives over two disks, and the laws on all that is ever recorded
"""
