"""What judge looks for: of each finding its name, who says it, the sections that it goes by, and what it means."""

DNCP, HNCP, ASSIGNMENT, TRICKLE = 'RFC 7787', 'RFC 7788', 'RFC 7695', 'RFC 6206'

# Found in the text of `hncp decode`; the sections of `bad` are those of the type too.
BY_DECODE = {
    'malformed': (f'{DNCP}, section 7', 'the datagram is no list of TLVs'),
    'bad': (f'{DNCP}, section 7', 'a TLV does not decode'),
    'body': (f'{DNCP}, section 7.2.3', "a node's data are no list of TLVs"),
}
BY_JUDGE = {
    'far-source': (f'{HNCP}, section 3', 'the source is not link-local'),
    'far-destination': (f'{HNCP}, section 3', 'the destination is neither link-local nor ff02::11'),
    'port': (f'{HNCP}, section 3', 'a multicast not to port 8231, or a reply not to the port that asked'),
    'long': (f'{HNCP}, section 3', 'more than 4000 bytes, which is all that a node has to be able to receive'),
    'no-endpoint': (f'{DNCP}, section 4.2', 'a Network State without a Node Endpoint before it'),
    'other-endpoint': (f'{DNCP}, section 7.2.1', 'a Node Endpoint other than the one that the source sent before'),
    'two-sources': (f'{HNCP}, section 3', 'one Node Endpoint from two sources'),
    'order': (f'{DNCP}, section 7.2.3', 'node data whose TLVs are not in strictly ascending order of their bytes'),
    'endpoint-zero': (f'{HNCP}, section 3', 'endpoint 0 in a Node Endpoint or a Peer'),
    'misplaced': (f'{DNCP}, section 7.3', 'a TLV where its type has no place, so that it is ignored'),
    'no-padding': (f'{DNCP}, section 7', 'the enclosing length does not count the padding of the last sub-TLV'),
    'too-soon': (f'{TRICKLE}, section 4.2; {HNCP}, section 3', 'multicasts closer than Trickle allows'),
    'too-late': (f'{DNCP}, section 6.1.2', 'no Network State for longer than the keep-alive interval'),
    'asks-often': (f'{DNCP}, section 4.4', 'Request Network State more often than once for each hash in 200 ms'),
    'unanswered': (f'{DNCP}, section 4.4', 'requests by unicast, none of them answered within 1 s'),
    'apart': (f'{DNCP}, section 4.5', 'two endpoints that were heard on one link for 42 s, and are not each other\'s peers'),
    'silent': (f'{DNCP}, section 6.1.5; {HNCP}, section 3', 'nothing from an endpoint for 2.1 keep-alive intervals before the end of the capture'),
    'differ': (f'{DNCP}, section 4.4', 'two endpoints on one link that said no network state hash in common for 60 s'),
    'network-hash': (f'{DNCP}, section 4.1.1', 'a network state hash that is not that of the Node States of its answer'),
    'data-hash': (f'{DNCP}, section 4.1.1; {HNCP}, section 3', 'a hash that is not that of the data beside it'),
    'two-hashes': (f'{DNCP}, section 4.4', 'one number of a node with two hashes'),
    'number-falls': (f'{DNCP}, section 4.4', 'a number below the one that the source showed before'),
    'age': (f'{DNCP}, section 7.2.3', 'an age that does not grow with time'),
    'too-old': (f'{DNCP}, section 4.6', 'an age past which the data no longer count'),
    'no-version': (f'{HNCP}, section 4', 'node data without an HNCP-Version'),
    'capability': (f'{HNCP}, section 10.1', 'a capability from 8 to 15; these are reserved'),
    'reserved': (f'{HNCP}, sections 10.1 and 10.3', 'a reserved bit that is set'),
    'own-peer': (f'{DNCP}, sections 2 and 7.3.1', 'node data with a Peer that is their own node'),
    'scope': (f'{HNCP}, sections 10.2.1 and 10.3; RFC 4291, section 2.4', 'an Assigned-Prefix or Delegated-Prefix of link-local or multicast addresses'),
    'preferred': (f'{HNCP}, section 10.2.1; RFC 4861, section 4.6.2', 'a Delegated-Prefix with a preferred lifetime above the valid one'),
    'delegated-overlap': (f'{HNCP}, section 10.2.1', 'Delegated-Prefixes of one External-Connection that overlap'),
    'ended': (f'{HNCP}, section 10.2.1', 'a delegated prefix that has ended; lifetimes count from the origination'),
    'inside-nothing': (f'{HNCP}, section 6.3', 'an assigned prefix inside no delegated one'),
    'overlap': (f'{ASSIGNMENT}, section 4.1', 'assigned prefixes of two links that overlap'),
    'two-prefixes': (f'{ASSIGNMENT}, section 4.1', 'one link with two prefixes of one delegated prefix'),
    'address-outside': (f'{HNCP}, section 6.4', 'a node address inside no assigned prefix'),
    'address-twice': (f'{HNCP}, section 6.4', 'one node address of two nodes'),
}
# What is told and is no finding: it is no fault, or it cannot be known whether it is one.
TOLD = {
    'listener': (f'{DNCP}, section 4.2', 'a datagram without a Node Endpoint, where one should be: its sender becomes no peer; no fault of a monitor'),
    'strangers': (f'{DNCP}, section 4.5', 'endpoints in one capture that never spoke to each other and said no hash in common; a fault if they are on one link'),
}
RULES = {**BY_DECODE, **BY_JUDGE, **TOLD}

# Where the types of TLVs are defined.
TYPES = {
    1: f'{DNCP}, section 7.1.1', 2: f'{DNCP}, section 7.1.2', 3: f'{DNCP}, section 7.2.1', 4: f'{DNCP}, section 7.2.2',
    5: f'{DNCP}, section 7.2.3', 8: f'{DNCP}, section 7.3.1', 9: f'{DNCP}, section 7.3.2', 32: f'{HNCP}, section 10.1',
    33: f'{HNCP}, section 10.2', 34: f'{HNCP}, section 10.2.1', 35: f'{HNCP}, section 10.3', 36: f'{HNCP}, section 10.4',
}


class Finding:
    """What was found in a frame, of a source and perhaps of a node."""

    def __init__(self, rule, frame, source, text, node=None, sections=None):
        self.rule = rule
        self.frame = frame
        self.source = source
        self.node = node
        self.text = text
        self.sections = sections or RULES[rule][0]

    def __str__(self):
        node = f' node={self.node}' if self.node else ''
        return f'frame {self.frame} {self.source}{node} {self.rule}: {self.text} ({self.sections})'
