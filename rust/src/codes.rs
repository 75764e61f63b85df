//! Every code that something is refused by, as `docs/CODES.md` lists them: a table to translate from. R is the number of regions, S
//! the number of sectors.

/// A way to be refused by a code.
#[derive(Clone, Copy, Debug, PartialEq, Eq)]
pub struct Listed {
    /// The code.
    pub code: u64,
    /// What the place is the number of, or `None` where it is 0.
    pub place: Option<&'static str>,
    /// When exactly it is given.
    pub given: &'static str,
    /// What it means at the screen.
    pub meaning: &'static str,
    /// What to do.
    pub remedy: &'static str,
}

/// The codes in the order in which they are checked: of a plan and a call on it, of a move, of a sheet, of writing and converting
/// one, of salvaging one, of figures over many.
pub const LISTED: &[Listed] = &[
    Listed {
        code: 1,
        place: None,
        given: "R is not in 1..512",
        meaning: "the plan has no region, or more than we judge",
        remedy: "take another part of the airspace",
    },
    Listed {
        code: 2,
        place: None,
        given: "S is not in 1..64",
        meaning: "the plan has no sector, or more than we judge",
        remedy: "take a part of the airspace with fewer sectors, or at least one",
    },
    Listed {
        code: 3,
        place: None,
        given: "there are not R workloads",
        meaning: "the list of workloads is not that of the regions",
        remedy: "hand over one workload a region",
    },
    Listed {
        code: 3,
        place: Some("region"),
        given: "a workload is above 1,000,000",
        meaning: "a workload is too large",
        remedy: "correct that region's workload",
    },
    Listed {
        code: 14,
        place: None,
        given: "there are not R outside areas",
        meaning: "the list of outside areas is not that of the regions",
        remedy: "hand over one area a region, 0 where it has no face to the outside",
    },
    Listed {
        code: 14,
        place: Some("region"),
        given: "an outside area is above 1,000,000",
        meaning: "a region's face to the outside is too large",
        remedy: "correct that region's outside area",
    },
    Listed {
        code: 4,
        place: None,
        given: "the edge numbers are not a multiple of three, or there are more than 2,048 edges",
        meaning: "the list of edges is broken or too long",
        remedy: "hand over a, b and area for each edge",
    },
    Listed {
        code: 5,
        place: Some("edge"),
        given: "an edge is not 1 <= a < b <= R with an area of 1..1,000,000, or not above the edge before it by a, then b",
        meaning: "an edge names no region, has no area, stands twice or out of order",
        remedy: "correct or sort the edges; the one named is the first that is wrong",
    },
    Listed {
        code: 13,
        place: None,
        given: "there are more than 64 flights",
        meaning: "more flights than we judge",
        remedy: "hand over at most 64",
    },
    Listed {
        code: 13,
        place: Some("flight"),
        given: "a flight's count of visits is not in 1..32",
        meaning: "a flight visits no region, or more than we judge",
        remedy: "leave it out, or correct its count",
    },
    Listed {
        code: 13,
        place: None,
        given: "the visit numbers are not twice as many as the visits that the counts add up to",
        meaning: "the list of visits is not that of the counts",
        remedy: "hand over region and seconds for each visit, one flight after the other",
    },
    Listed {
        code: 13,
        place: Some("flight"),
        given: "a visit's region is not in 1..R, or its dwell is not in 1..86,400 seconds",
        meaning: "a flight visits no region of the plan, or for no time or more than a day",
        remedy: "correct that flight's visits",
    },
    Listed {
        code: 6,
        place: None,
        given: "the constraint numbers are not a multiple of four, or there are not 1..16 constraints",
        meaning: "the list of constraints is broken, empty or too long",
        remedy: "hand over kind, relation, limit and weight for each",
    },
    Listed {
        code: 7,
        place: Some("constraint"),
        given: "a constraint's kind is not 1..5, or in a first sheet not 1..4, or its relation is not 1..6, or not 1 where the \
                kind is 2 or 3, or its limit is above 100,000,000,000, or its weight is not in 1..1,000",
        meaning: "this constraint can't be judged, or the sheet can't hold it",
        remedy: "correct it; kinds 2 and 3 take only \"at most\"; kind 5 goes with the call or into a second sheet, not into a \
                 first",
    },
    Listed {
        code: 8,
        place: None,
        given: "there are not R sectors in the colouring",
        meaning: "the colouring is not that of the regions",
        remedy: "hand over one sector a region",
    },
    Listed {
        code: 8,
        place: Some("region"),
        given: "a sector is not in 1..S",
        meaning: "a region is in a sector that the plan doesn't have",
        remedy: "give it to one of 1..S",
    },
    Listed {
        code: 9,
        place: None,
        given: "the move numbers are not a multiple of three, or there are more than 4,096 moves",
        meaning: "the list of moves is broken or too long",
        remedy: "hand over three numbers a move, and cut a longer list in two: the answers are the same",
    },
    Listed {
        code: 10,
        place: None,
        given: "the room for rows is less than 4 numbers a move",
        meaning: "too little memory was lent",
        remedy: "lend 4 numbers a move",
    },
    Listed {
        code: 11,
        place: None,
        given: "the room for verdicts is less than 2 numbers a constraint",
        meaning: "too little memory was lent",
        remedy: "lend 2 numbers a constraint",
    },
    Listed {
        code: 12,
        place: None,
        given: "the work memory is less than R + 2 S + 1 numbers",
        meaning: "too little memory was lent",
        remedy: "lend R + 2 S + 1 numbers",
    },
    Listed {
        code: 21,
        place: None,
        given: "the first of its three numbers, the kind, is not 1..5",
        meaning: "there is no such move",
        remedy: "1 and 2 give a region to a sector, 3 and 4 exchange two regions, 5 asks about a region",
    },
    Listed {
        code: 22,
        place: None,
        given: "its region, or the first of two, which is its second number, is not in 1..R",
        meaning: "there is no such region",
        remedy: "correct the region",
    },
    Listed {
        code: 23,
        place: None,
        given: "its third number is not a sector in 1..S (kinds 1, 2), not a region in 1..R (kinds 3, 4), not 0 (kind 5)",
        meaning: "there is no such sector, or no such second region",
        remedy: "correct it",
    },
    Listed {
        code: 31,
        place: None,
        given: "the length is 0, not a multiple of 512, or over 43 blocks, or over 74 where the first four bytes are S C T 2",
        meaning: "this is no sheet, or it was cut off",
        remedy: "send it again",
    },
    Listed {
        code: 32,
        place: Some("block"),
        given: "a block doesn't begin with the letters S C T R, or S C T 2 in a second sheet",
        meaning: "this is no sheet of ours, or blocks of two sheets are mixed; in converting also: this is the other sheet",
        remedy: "look which file it is",
    },
    Listed {
        code: 33,
        place: Some("block"),
        given: "a block's two check bytes are not those of its other bytes",
        meaning: "the sheet was damaged on its way",
        remedy: "send it again",
    },
    Listed {
        code: 34,
        place: Some("block"),
        given: "a block's kind or number is not the one due",
        meaning: "blocks are missing or out of order",
        remedy: "have the sheet written again",
    },
    Listed {
        code: 35,
        place: Some("block"),
        given: "a block's used count is not the one due",
        meaning: "the block has more or less in it than the head says",
        remedy: "have the sheet written again",
    },
    Listed {
        code: 36,
        place: Some("block"),
        given: "a byte is not zero where zero is due",
        meaning: "something stands where nothing may",
        remedy: "have the sheet written again",
    },
    Listed {
        code: 37,
        place: Some("code of that table"),
        given:
            "a number of the head, or of what the blocks hold, is refused by the table of the call on a plan; in a first sheet \
                also kind 5, by 7; in a second also, by 13, a head with fewer visits than flights or more than 32 times as many, \
                and visit counts that don't add up to the head's number of visits",
        meaning: "the plan in the sheet is refused as it was written",
        remedy: "look that code up under a call on a plan",
    },
    Listed {
        code: 38,
        place: None,
        given: "there are not as many blocks as the head asks for",
        meaning: "blocks are missing or left over",
        remedy: "have the sheet written again",
    },
    Listed {
        code: 39,
        place: None,
        given: "a lent list is shorter than what the sheet holds",
        meaning: "too little memory was lent",
        remedy: "lend room for what the head says",
    },
    Listed {
        code: 40,
        place: None,
        given: "the lent bytes are fewer than the sheet has",
        meaning: "too little memory was lent",
        remedy: "lend 43 blocks of 512 bytes for a first sheet, 74 for a second: enough for every one; in salvaging, as many \
                 bytes as the damaged sheet has",
    },
    Listed {
        code: 41,
        place: None,
        given: "an outside area is not zero, a flight is there, or a constraint has a kind other than 1 to 4",
        meaning: "a first sheet can't carry this plan",
        remedy: "send the second sheet, or take out what the first can't carry",
    },
    Listed {
        code: 17,
        place: None,
        given: "the room for the list is less than one number a lost region",
        meaning: "too little memory was lent",
        remedy: "lend one number a region: 512 are enough for every sheet",
    },
    Listed {
        code: 18,
        place: Some("sheet"),
        given: "a sheet's block count is not in 1..74, or the input ends inside a count or inside a sheet",
        meaning: "the input was cut off, or has something else where a count is due; the figures are over the sheets before it",
        remedy: "put before each sheet how many blocks of 512 bytes it has, in two bytes, the lower one first, leave out what is not 1 to 74 whole blocks, and send all of it again",
    },
];
