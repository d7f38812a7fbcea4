"""The calls, types and constants that are part of the public surface, whether a crate of this repository uses them or not.

Others build on these, so none of them goes, changes its name or becomes private, whatever crate it stands in. A method stands under its
type. What stands here and is public nowhere is a fault, which `tools/unused --check` says.
"""

# Crates that are for programs outside of this repository: all that they offer stays.
LIBRARIES = ("kothaysu", "sui_validator")

NAMES = set(
    """
    Failed Source Sink OutFault Keeper Disk MemSource MemSource::new FreeSource FreeSource::new MemSink MemSink::new NarrowSink NarrowSink::new
    MemKeeper MemKeeper::new AlteredKeeper AlteredKeeper::new InSource OutSink FileDisk

    OutOfMemory Seq Seq::new Seq::len Seq::as_slice Seq::push Seq::from_vec Seq::into_vec Seq::set Seq::from_slice
    Writer Writer::new Writer::finish Writer::put_u8 Writer::put_u16 Writer::put_u32 Writer::put_u64 Writer::put_u128 Writer::put_bool
    Writer::put_len Writer::put_tag Writer::put_fixed Writer::put_bytes Writer::put_text
    WireFault Reader Reader::new Reader::u8 Reader::u16 Reader::u32 Reader::u64 Reader::u128 Reader::bool Reader::len Reader::tag Reader::bytes
    Reader::text Reader::fixed32 Reader::finish
    Digest Hasher Hasher::begin Hasher::add Hasher::end digest_of created_id genesis_id address_of

    Committee Committee::new Committee::len Committee::stake Committee::total Committee::weight Committee::is_quorum CommitteeRefusal
    Signer Sealer KeyedSeal KeyedSeal::new
    ObjectId Address ObjectKey ObjectRef Owner Kind Content Object Input Argument Command Transaction SignedTx Unread Producer
    encode_tx encode_signed decode_signed tx_digest object_digest owned_keys object_count lamport
    Statement Sealed MemberSeal Certificate Entry encode_statement encode_sealed encode_certificate encode_entry decode_statement decode_sealed
    decode_certificate decode_entry
    Status Written Effects effects_digest currency_sum Checkpoint checkpoint_digest check_link LinkRefusal Record RanItem encode_record decode_record

    check_shape ShapeRefusal collect CollectRefusal check_cert CertRefusal collect_acks Finality decide DecideRefusal
    Store Store::opening Store::get Store::live Store::has Store::producer Store::consumer Store::executed Store::write Store::revert_to
    Store::live_list LockTable LockTable::new LockTable::lock_all LockTable::locked_by LockTable::clear LockRefusal
    Item Given Placed Gave Mode mode call fits Executed execute
    Admission Admission::new Admission::is_known Admission::push Admission::mark Admission::pending_on Admission::deferred_on
    Admission::assigned Admission::cut Taken Assigned
    Held Carry Outcome Left Slot Want Task plan_ready settle EndCount EndCount::new EndCount::count Counted next_opening Turned

    Job Edge Plan Plan::new Plan::tasks Plan::edge_count Plan::edge Plan::job PlanRefusal evaluate_plain
    deal Hand Hand::thief Hand::push Hand::pop Hand::take_back Thief Thief::steal Stolen
    Board Board::lay Board::split Board::join Board::claim Board::take_input Board::pay Board::close BoardSeat Claim
    Gate OpenGate run_plan PoolRun

    Validator Validator::start Validator::vote Validator::hold Validator::see Validator::run Validator::close Validator::end Validator::turn
    Validator::ack Validator::executed_digest Validator::checkpoint Validator::epoch Validator::seen Validator::held_digest Validator::is_up
    Validator::live_list Validator::opening_list Voted Seen SeenWhat Ignore Ran
    StartRefusal VoteRefusal HoldRefusal SeeRefusal RunRefusal CloseRefusal EndRefusal TurnRefusal AckRefusal
    Desk Desk::open Desk::split Desk::join Desk::vote Desk::close DeskPass DeskEntry DeskRefusal

    read_schedule Schedule ScheduleRefusal Setup Event ObjWord RefWord InputWord ArgWord CommandWord make_text print_line Line
    World World::new World::step World::sums World::member World::transaction World::signed World::checkpoint World::committee
    World::vote_line World::show_lines WorldFault Sums
    committee committee_in place_of agrees Agreement
    Link Chain encode_chain decode_chain make_chain check_chain find ChainRefusal
    Follower Follower::open Follower::apply Follower::live_list Follower::epoch FollowRefusal
    MemDisk MemDisk::new MemDisk::bytes MemDisk::crash DiskLog DiskLog::open DiskLog::append_record DiskLog::into_disk OpenRefusal LogRefusal
    """.split()
)
