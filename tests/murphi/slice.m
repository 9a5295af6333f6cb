-- One slice, written from docs/PROTOCOL.md alone, in the language of the Murphi checkers. The words in quotation marks
-- are sections of that page, and so are the names.
--
-- A line has one word, with the values 0 to `largest`. In place of the journal, which is never full, there is the last
-- value of each line. The tracker, credits and accounts are left out. An agent uses at most twice as many slots at once
-- as there are lines, so `slots` can be small. tests/murphi/run sets the constants.

const
  agents: 2;
  lines: 1;
  slots: 1;
  largest: 1;
  stays: false;    -- whether a copy that becomes I keeps its data, as the page says; if not, its data is 0
  listing: false;  -- whether each state and each transition is printed ("The listing", below)

  nobody: agents;

  -- "Refusals"
  Allowed: 0;
  WrongState: 2;
  Pending: 3;
  NothingPending: 4;
  LineBusy: 5;
  NotWaiting: 6;
  NoFlit: 7;
  MustAccept: 9;

type
  agent: 0 .. agents - 1;
  anybody: 0 .. agents;
  line: 0 .. lines - 1;
  slot: 0 .. slots - 1;
  value: 0 .. largest;
  refusal: 0 .. 12;
  count: 0 .. 6;

  state: enum { I, SC, UC, UD, SD };
  kind: enum { NoKind, ReadNotSharedDirty, ReadShared, ReadUnique, CleanUnique, Evict,
               WriteBackFull, WriteCleanFull, WriteEvictFull };
  phase: enum { NoRequest, Sent, Retried };
  serves: enum { Idle, Snooping, AwaitingCompAck, AwaitingWriteData };

  -- "Messages", by channel
  snp: enum { NoSnp, SnpShared, SnpNotSharedDirty, SnpUnique, SnpCleanInvalid };
  rsp_down: enum { NoRspDown, RetryAck_0, RetryAck_1, Comp_UC, Comp_I, CompDBIDResp };
  dat_down: enum { NoDatDown, CompData_SC, CompData_UC };
  rsp_up: enum { NoRspUp, SnpResp_I, SnpResp_SC, CompAck };
  dat_up: enum { NoDatUp, SnpRespData_I_PD, SnpRespData_SC_PD, SnpRespData_SD,
                 CopyBackWrData_I, CopyBackWrData_SC, CopyBackWrData_UC, CopyBackWrData_UD_PD, CopyBackWrData_SD_PD };

  request: record kind: kind; slot: slot; end;

  -- "One line": what there is for each agent
  lane: record
    state: state;
    data: value;
    pending: request;
    phase: phase;
    named: boolean;
    waiting: request;
    awaited: boolean;
    req: request;
    allow_retry: boolean;
    snp: snp;
    rsp_down: rsp_down;
    dat_down: dat_down;
    down: value;  -- of dat_down
    rsp_up: rsp_up;
    dat_up: dat_up;
    up: value;    -- of dat_up
  end;

  -- "One line": the rest
  home: record
    memory: value;
    unique: boolean;
    owner: anybody;
    serving: serves;
    served: anybody;
    request: request;  -- that is served; its kind only of Snooping and AwaitingWriteData
    last: value;
  end;

var
  lanes: array [line] of array [agent] of lane;
  homes: array [line] of home;

------------------------------------------------------------------------------------------------------------------------
-- "Kinds of request"

function is_needed(k: kind; s: state): boolean;
begin
  switch k
    case ReadNotSharedDirty, ReadShared, ReadUnique: return s = I;
    case CleanUnique: return s = SC | s = SD;
    case Evict: return s = SC | s = UC;
    case WriteBackFull, WriteCleanFull: return s = UD | s = SD;
    case WriteEvictFull: return s = UC;
    else return false;
  end;
end;

function is_copy_back(k: kind): boolean;
begin return k = WriteBackFull | k = WriteCleanFull | k = WriteEvictFull; end;

function is_read(k: kind): boolean;
begin return k = ReadNotSharedDirty | k = ReadShared | k = ReadUnique; end;

-- The credit type, in profile `Two`, is 1 of copy-backs and 0 of all others.
function retry_ack(k: kind): rsp_down;
begin if is_copy_back(k) then return RetryAck_1; end; return RetryAck_0; end;

function snoop_of(k: kind): snp;
begin
  switch k
    case ReadNotSharedDirty: return SnpNotSharedDirty;
    case ReadShared: return SnpShared;
    case ReadUnique: return SnpUnique;
    case CleanUnique: return SnpCleanInvalid;
    else return NoSnp;
  end;
end;

------------------------------------------------------------------------------------------------------------------------
-- "The actions": the refusals in their order. 10 and 1 don't come about here.

function is_in_use(n: agent; s: slot): boolean;
begin
  return exists l: line do
    (lanes[l][n].phase != NoRequest & lanes[l][n].pending.slot = s) |
    (lanes[l][n].waiting.kind != NoKind & lanes[l][n].waiting.slot = s) |
    (homes[l].served = n & homes[l].request.slot = s)
  end;
end;

function is_answer(m: dat_up): boolean;
begin return m = SnpRespData_I_PD | m = SnpRespData_SC_PD | m = SnpRespData_SD; end;

function is_write_data(m: dat_up): boolean;
begin return m != NoDatUp & !is_answer(m); end;

function why_no_load(n: agent; l: line): refusal;
begin if lanes[l][n].state = I then return WrongState; end; return Allowed; end;

function why_no_store(n: agent; l: line): refusal;
begin
  if lanes[l][n].phase != NoRequest then return Pending; end;
  if lanes[l][n].state != UC & lanes[l][n].state != UD then return WrongState; end;
  return Allowed;
end;

function why_no_drop(n: agent; l: line): refusal;
begin
  if lanes[l][n].phase != NoRequest then return Pending; end;
  if lanes[l][n].state != SC & lanes[l][n].state != UC then return WrongState; end;
  return Allowed;
end;

function why_no_issue(n: agent; l: line; k: kind; s: slot): refusal;
begin
  if lanes[l][n].phase != NoRequest | is_in_use(n, s) then return Pending; end;
  if !is_needed(k, lanes[l][n].state) then return WrongState; end;
  return Allowed;
end;

function why_no_admit(n: agent; l: line): refusal;
begin if lanes[l][n].req.kind = NoKind then return NoFlit; end; return Allowed; end;

function why_no_retry(n: agent; l: line): refusal;
begin
  if lanes[l][n].req.kind = NoKind then return NoFlit; end;
  if !lanes[l][n].allow_retry then return MustAccept; end;
  return Allowed;
end;

function why_no_recv_retry(n: agent; l: line): refusal;
begin
  if lanes[l][n].rsp_down != RetryAck_0 & lanes[l][n].rsp_down != RetryAck_1 then return NoFlit; end;
  return Allowed;
end;

function why_no_resend(n: agent; l: line): refusal;
begin
  alias it: lanes[l][n] do
    if it.phase != Retried then return NothingPending; end;
    if is_copy_back(it.pending.kind) & !is_needed(it.pending.kind, it.state) then return WrongState; end;
  end;
  return Allowed;
end;

function why_no_cancel(n: agent; l: line): refusal;
begin
  alias it: lanes[l][n] do
    if it.phase != Retried then return NothingPending; end;
    if !is_copy_back(it.pending.kind) | is_needed(it.pending.kind, it.state) then return WrongState; end;
  end;
  return Allowed;
end;

function why_no_start(n: agent; l: line): refusal;
begin
  if lanes[l][n].waiting.kind = NoKind then return NotWaiting; end;
  if homes[l].serving != Idle then return LineBusy; end;
  return Allowed;
end;

function why_no_recv_snp(n: agent; l: line): refusal;
begin if lanes[l][n].snp = NoSnp then return NoFlit; end; return Allowed; end;

function why_no_recv_snp_resp(n: agent; l: line): refusal;
begin
  alias it: lanes[l][n] do
    if it.rsp_up != SnpResp_I & it.rsp_up != SnpResp_SC & !is_answer(it.dat_up) then return NoFlit; end;
  end;
  return Allowed;
end;

function why_no_recv_data(n: agent; l: line): refusal;
begin if lanes[l][n].dat_down = NoDatDown then return NoFlit; end; return Allowed; end;

function why_no_recv_comp(n: agent; l: line): refusal;
begin
  if lanes[l][n].rsp_down != Comp_UC & lanes[l][n].rsp_down != Comp_I then return NoFlit; end;
  return Allowed;
end;

function why_no_recv_ack(n: agent; l: line): refusal;
begin if lanes[l][n].rsp_up != CompAck then return NoFlit; end; return Allowed; end;

function why_no_recv_dbid(n: agent; l: line): refusal;
begin if lanes[l][n].rsp_down != CompDBIDResp then return NoFlit; end; return Allowed; end;

function why_no_recv_wr_data(n: agent; l: line): refusal;
begin if !is_write_data(lanes[l][n].dat_up) then return NoFlit; end; return Allowed; end;

------------------------------------------------------------------------------------------------------------------------
-- Parts of a line. "Messages": a message is put into an empty cell.

procedure invalidate(n: agent; l: line);
begin
  lanes[l][n].state := I;
  if !stays then lanes[l][n].data := 0; end;
end;

procedure forget(var it: request);
begin it.kind := NoKind; it.slot := 0; end;

procedure end_pending(n: agent; l: line);
begin forget(lanes[l][n].pending); lanes[l][n].phase := NoRequest; end;

procedure send_req(n: agent; l: line; allow_retry: boolean);
begin
  assert "Req is empty" lanes[l][n].req.kind = NoKind;
  lanes[l][n].req := lanes[l][n].pending;
  lanes[l][n].allow_retry := allow_retry;
end;

procedure take_req(n: agent; l: line);
begin forget(lanes[l][n].req); lanes[l][n].allow_retry := false; end;

procedure send_rsp_down(n: agent; l: line; m: rsp_down);
begin
  assert "RspDown is empty" lanes[l][n].rsp_down = NoRspDown;
  lanes[l][n].rsp_down := m;
end;

procedure send_dat_down(n: agent; l: line; m: dat_down; v: value);
begin
  assert "DatDown is empty" lanes[l][n].dat_down = NoDatDown;
  lanes[l][n].dat_down := m;
  lanes[l][n].down := v;
end;

procedure send_rsp_up(n: agent; l: line; m: rsp_up);
begin
  assert "RspUp is empty" lanes[l][n].rsp_up = NoRspUp;
  lanes[l][n].rsp_up := m;
end;

procedure send_dat_up(n: agent; l: line; m: dat_up; v: value);
begin
  assert "DatUp is empty" lanes[l][n].dat_up = NoDatUp;
  lanes[l][n].dat_up := m;
  lanes[l][n].up := v;
end;

procedure take_dat_up(n: agent; l: line);
begin lanes[l][n].dat_up := NoDatUp; lanes[l][n].up := 0; end;

-- "The filter"
procedure name_too(n: agent; l: line);
begin
  if !lanes[l][n].named then homes[l].unique := false; end;
  lanes[l][n].named := true;
end;

procedure name_alone(n: agent; l: line);
begin
  for m: agent do lanes[l][m].named := m = n; end;
  homes[l].unique := true;
  homes[l].owner := nobody;
end;

procedure end_owner(n: agent; l: line);
begin if homes[l].owner = n then homes[l].owner := nobody; end; end;

procedure unname(n: agent; l: line);
begin
  if lanes[l][n].named & (forall m: agent do m = n | !lanes[l][m].named end) then homes[l].unique := false; end;
  lanes[l][n].named := false;
  end_owner(n, l);
end;

procedure serve(n: agent; l: line; f: serves; k: kind; s: slot);
begin
  homes[l].serving := f;
  homes[l].served := n;
  homes[l].request.kind := k;
  homes[l].request.slot := s;
end;

procedure end_service(l: line);
begin homes[l].serving := Idle; homes[l].served := nobody; forget(homes[l].request); end;

function is_other(m: agent; n: agent; l: line): boolean;
begin return m != n & lanes[l][m].named; end;

function has_others(n: agent; l: line): boolean;
begin return exists m: agent do is_other(m, n, l) end; end;

function is_awaiting(l: line): boolean;
begin return exists m: agent do lanes[l][m].awaited end; end;

procedure ask(m: agent; l: line; k: kind);
begin
  assert "Snp is empty" lanes[l][m].snp = NoSnp;
  lanes[l][m].snp := snoop_of(k);
  lanes[l][m].awaited := true;
end;

procedure ask_others(n: agent; l: line; k: kind);
begin for m: agent do if is_other(m, n, l) then ask(m, l, k); end; end; end;

-- "Completion". `v` is the data of SnpRespData_SD if that came, and the memory if not.
procedure complete(n: agent; l: line; k: kind; s: slot; v: value);
begin
  if k = CleanUnique then
    send_rsp_down(n, l, Comp_UC);
    name_alone(n, l);
  elsif k = ReadUnique | !has_others(n, l) then
    send_dat_down(n, l, CompData_UC, homes[l].memory);
    name_alone(n, l);
  else
    if k = ReadShared then send_dat_down(n, l, CompData_SC, v); end;
    if k = ReadNotSharedDirty then send_dat_down(n, l, CompData_SC, homes[l].memory); end;
    name_too(n, l);
    homes[l].unique := false;
  end;
  serve(n, l, AwaitingCompAck, NoKind, s);
end;

------------------------------------------------------------------------------------------------------------------------
-- "The actions": what each does

procedure store(n: agent; l: line; v: value);
begin lanes[l][n].data := v; lanes[l][n].state := UD; homes[l].last := v; end;

procedure issue(n: agent; l: line; k: kind; s: slot);
begin
  lanes[l][n].pending.kind := k;
  lanes[l][n].pending.slot := s;
  lanes[l][n].phase := Sent;
  if k = Evict then invalidate(n, l); end;
  send_req(n, l, true);
end;

procedure admit(n: agent; l: line);
begin
  assert "nothing of n waits" lanes[l][n].waiting.kind = NoKind;
  lanes[l][n].waiting := lanes[l][n].req;
  take_req(n, l);
end;

procedure retry(n: agent; l: line);
begin send_rsp_down(n, l, retry_ack(lanes[l][n].req.kind)); take_req(n, l); end;

procedure recv_retry(n: agent; l: line);
begin
  assert "RetryAck meets a request that was sent" lanes[l][n].phase = Sent;
  lanes[l][n].rsp_down := NoRspDown;
  lanes[l][n].phase := Retried;
end;

procedure resend(n: agent; l: line);
begin lanes[l][n].phase := Sent; send_req(n, l, false); end;

-- "Start"
procedure start_with_snoops(n: agent; l: line; k: kind; s: slot);
begin
  if k = ReadUnique | k = CleanUnique | (homes[l].unique & has_others(n, l)) then
    ask_others(n, l, k);
  elsif homes[l].owner != nobody & homes[l].owner != n then
    ask(homes[l].owner, l, k);
  end;
  if is_awaiting(l) then serve(n, l, Snooping, k, s); else complete(n, l, k, s, homes[l].memory); end;
end;

procedure start(n: agent; l: line);
var it: request;
begin
  it := lanes[l][n].waiting;
  forget(lanes[l][n].waiting);
  if it.kind = Evict then
    unname(n, l);
    send_rsp_down(n, l, Comp_I);
  elsif is_copy_back(it.kind) then
    send_rsp_down(n, l, CompDBIDResp);
    serve(n, l, AwaitingWriteData, it.kind, it.slot);
  else
    start_with_snoops(n, l, it.kind, it.slot);
  end;
end;

-- "Answers to snoops"
procedure answer_shared(n: agent; l: line);
begin
  switch lanes[l][n].state
    case I: send_rsp_up(n, l, SnpResp_I);
    case SC, UC: lanes[l][n].state := SC; send_rsp_up(n, l, SnpResp_SC);
    case UD, SD: lanes[l][n].state := SD; send_dat_up(n, l, SnpRespData_SD, lanes[l][n].data);
  end;
end;

procedure answer_not_shared_dirty(n: agent; l: line);
begin
  switch lanes[l][n].state
    case I: send_rsp_up(n, l, SnpResp_I);
    case SC, UC: lanes[l][n].state := SC; send_rsp_up(n, l, SnpResp_SC);
    case UD, SD: lanes[l][n].state := SC; send_dat_up(n, l, SnpRespData_SC_PD, lanes[l][n].data);
  end;
end;

procedure answer_unique(n: agent; l: line);
begin
  switch lanes[l][n].state
    case I: send_rsp_up(n, l, SnpResp_I);
    case SC, UC: send_rsp_up(n, l, SnpResp_I); invalidate(n, l);
    case UD, SD: send_dat_up(n, l, SnpRespData_I_PD, lanes[l][n].data); invalidate(n, l);
  end;
end;

procedure recv_snp(n: agent; l: line);
var m: snp;
begin
  m := lanes[l][n].snp;
  lanes[l][n].snp := NoSnp;
  switch m
    case SnpShared: answer_shared(n, l);
    case SnpNotSharedDirty: answer_not_shared_dirty(n, l);
    case SnpUnique, SnpCleanInvalid: answer_unique(n, l);
  end;
end;

-- "Answers of snooped agents"
procedure recv_snp_resp(n: agent; l: line);
var v: value;
begin
  assert "the answer is awaited" homes[l].serving = Snooping & lanes[l][n].awaited;
  assert "there is one answer" lanes[l][n].rsp_up = NoRspUp | !is_answer(lanes[l][n].dat_up);
  if lanes[l][n].dat_up = SnpRespData_I_PD | lanes[l][n].dat_up = SnpRespData_SC_PD then
    homes[l].memory := lanes[l][n].up;
  end;
  if lanes[l][n].rsp_up = SnpResp_I | lanes[l][n].dat_up = SnpRespData_I_PD then
    unname(n, l);
  else
    homes[l].unique := false;
  end;
  v := homes[l].memory;
  if lanes[l][n].dat_up = SnpRespData_SD then
    v := lanes[l][n].up;
    homes[l].owner := n;
  else
    end_owner(n, l);
  end;
  if is_answer(lanes[l][n].dat_up) then take_dat_up(n, l); else lanes[l][n].rsp_up := NoRspUp; end;
  lanes[l][n].awaited := false;
  if !is_awaiting(l) then complete(homes[l].served, l, homes[l].request.kind, homes[l].request.slot, v); end;
end;

procedure recv_data(n: agent; l: line);
begin
  assert "CompData meets its read" lanes[l][n].phase = Sent & is_read(lanes[l][n].pending.kind);
  if lanes[l][n].dat_down = CompData_SC then lanes[l][n].state := SC; else lanes[l][n].state := UC; end;
  lanes[l][n].data := lanes[l][n].down;
  lanes[l][n].dat_down := NoDatDown;
  lanes[l][n].down := 0;
  end_pending(n, l);
  send_rsp_up(n, l, CompAck);
end;

procedure recv_comp(n: agent; l: line);
begin
  if lanes[l][n].rsp_down = Comp_UC then
    assert "Comp_UC meets its CleanUnique" lanes[l][n].phase = Sent & lanes[l][n].pending.kind = CleanUnique;
    switch lanes[l][n].state
      case I: lanes[l][n].state := I;
      case SC: lanes[l][n].state := UC;
      case SD: lanes[l][n].state := UD;
      else error "Comp_UC meets a unique copy";
    end;
    send_rsp_up(n, l, CompAck);
  else
    assert "Comp_I meets its Evict" lanes[l][n].phase = Sent & lanes[l][n].pending.kind = Evict;
  end;
  lanes[l][n].rsp_down := NoRspDown;
  end_pending(n, l);
end;

procedure recv_ack(n: agent; l: line);
begin
  assert "CompAck is awaited" homes[l].serving = AwaitingCompAck & homes[l].served = n;
  lanes[l][n].rsp_up := NoRspUp;
  end_service(l);
end;

-- "Write data": what the copy becomes after WriteBackFull or WriteEvictFull, and, as `s`, after WriteCleanFull
procedure leave(n: agent; l: line; s: state);
begin
  if lanes[l][n].pending.kind = WriteCleanFull & s != I then lanes[l][n].state := s; else invalidate(n, l); end;
end;

procedure recv_dbid(n: agent; l: line);
begin
  assert "CompDBIDResp meets its copy-back" lanes[l][n].phase = Sent & is_copy_back(lanes[l][n].pending.kind);
  switch lanes[l][n].state
    case UD: send_dat_up(n, l, CopyBackWrData_UD_PD, lanes[l][n].data); leave(n, l, UC);
    case SD: send_dat_up(n, l, CopyBackWrData_SD_PD, lanes[l][n].data); leave(n, l, SC);
    case UC: send_dat_up(n, l, CopyBackWrData_UC, lanes[l][n].data);
      assert "it doesn't come about after WriteCleanFull" lanes[l][n].pending.kind != WriteCleanFull;
      leave(n, l, I);
    case SC: send_dat_up(n, l, CopyBackWrData_SC, lanes[l][n].data); leave(n, l, SC);
    case I: send_dat_up(n, l, CopyBackWrData_I, 0);
  end;
  lanes[l][n].rsp_down := NoRspDown;
  end_pending(n, l);
end;

procedure recv_wr_data(n: agent; l: line);
begin
  assert "write data is awaited" homes[l].serving = AwaitingWriteData & homes[l].served = n;
  if lanes[l][n].dat_up = CopyBackWrData_UD_PD | lanes[l][n].dat_up = CopyBackWrData_SD_PD then
    homes[l].memory := lanes[l][n].up;
  end;
  if homes[l].request.kind != WriteCleanFull | lanes[l][n].dat_up = CopyBackWrData_I then unname(n, l); end;
  end_owner(n, l);
  take_dat_up(n, l);
  end_service(l);
end;

------------------------------------------------------------------------------------------------------------------------
-- The listing: `state STATE REFUSALS`, with the refusals of all actions in the order of the agents, the lines and "The
-- actions", and `step STATE ACTION EFFECT STATE`. tests/murphi/walk.cpp prints the same of the library.

procedure say_kind(k: kind);
begin
  switch k
    case ReadNotSharedDirty: put "ReadNotSharedDirty";
    case ReadShared: put "ReadShared";
    case ReadUnique: put "ReadUnique";
    case CleanUnique: put "CleanUnique";
    case Evict: put "Evict";
    case WriteBackFull: put "WriteBackFull";
    case WriteCleanFull: put "WriteCleanFull";
    case WriteEvictFull: put "WriteEvictFull";
    else put "-";
  end;
end;

-- (`+ 0` makes a number of a name, with which `put` would print the name too)
procedure say_request(var it: request);
begin say_kind(it.kind); put "/"; put it.slot + 0; end;

procedure say_state(s: state);
begin
  switch s
    case I: put "I=";
    case SC: put "SC=";
    case UC: put "UC=";
    case UD: put "UD=";
    case SD: put "SD=";
  end;
end;

procedure say_flits_down(var it: lane);
begin
  switch it.snp
    case NoSnp:
    case SnpShared: put ",SnpShared";
    case SnpNotSharedDirty: put ",SnpNotSharedDirty";
    case SnpUnique: put ",SnpUnique";
    case SnpCleanInvalid: put ",SnpCleanInvalid";
  end;
  switch it.rsp_down
    case NoRspDown:
    case RetryAck_0: put ",RetryAck/0";
    case RetryAck_1: put ",RetryAck/1";
    case Comp_UC: put ",Comp_UC";
    case Comp_I: put ",Comp_I";
    case CompDBIDResp: put ",CompDBIDResp";
  end;
  switch it.dat_down
    case NoDatDown:
    case CompData_SC: put ",CompData_SC=";
    case CompData_UC: put ",CompData_UC=";
  end;
  if it.dat_down != NoDatDown then put it.down + 0; end;
end;

procedure say_flits_up(var it: lane);
begin
  switch it.rsp_up
    case NoRspUp:
    case SnpResp_I: put ",SnpResp_I";
    case SnpResp_SC: put ",SnpResp_SC";
    case CompAck: put ",CompAck";
  end;
  switch it.dat_up
    case NoDatUp:
    case SnpRespData_I_PD: put ",SnpRespData_I_PD=";
    case SnpRespData_SC_PD: put ",SnpRespData_SC_PD=";
    case SnpRespData_SD: put ",SnpRespData_SD=";
    case CopyBackWrData_I: put ",CopyBackWrData_I=";
    case CopyBackWrData_SC: put ",CopyBackWrData_SC=";
    case CopyBackWrData_UC: put ",CopyBackWrData_UC=";
    case CopyBackWrData_UD_PD: put ",CopyBackWrData_UD_PD=";
    case CopyBackWrData_SD_PD: put ",CopyBackWrData_SD_PD=";
  end;
  if it.dat_up != NoDatUp then put it.up + 0; end;
end;

procedure say_lane(var it: lane);
begin
  say_state(it.state);
  put it.data + 0;
  if it.phase != NoRequest then put ","; say_request(it.pending); end;
  if it.phase = Sent then put "/Sent"; end;
  if it.phase = Retried then put "/Retried"; end;
  if it.named then put ",named"; end;
  if it.waiting.kind != NoKind then put ","; say_request(it.waiting); put "/Waiting"; end;
  if it.awaited then put ",awaited"; end;
  if it.req.kind != NoKind then
    put ",";
    say_request(it.req);
    if it.allow_retry then put "/allow"; else put "/credit"; end;
  end;
  say_flits_down(it);
  say_flits_up(it);
  put "|";
end;

procedure say_home(var it: home);
begin
  put it.memory + 0;
  put ",";
  put it.last + 0;
  if it.unique then put ",unique"; end;
  if it.owner != nobody then put ",owner/"; put it.owner + 0; end;
  switch it.serving
    case Idle:
    case Snooping: put ",Snooping/";
    case AwaitingCompAck: put ",AwaitingCompAck/";
    case AwaitingWriteData: put ",AwaitingWriteData/";
  end;
  if it.serving != Idle then put it.served + 0; put "/"; say_request(it.request); end;
  put ";";
end;

procedure say_slice();
begin
  for l: line do
    for n: agent do say_lane(lanes[l][n]); end;
    say_home(homes[l]);
  end;
end;

procedure say_refusals(n: agent; l: line);
begin
  put why_no_load(n, l) + 0;
  for v: value do put why_no_store(n, l) + 0; end;
  put why_no_drop(n, l) + 0;
  for k: kind do for s: slot do
    if k != NoKind then put why_no_issue(n, l, k, s) + 0; end;
  end; end;
  put why_no_admit(n, l) + 0;
  put why_no_retry(n, l) + 0;
  put why_no_recv_retry(n, l) + 0;
  put why_no_resend(n, l) + 0;
  put why_no_cancel(n, l) + 0;
  put why_no_start(n, l) + 0;
  put why_no_recv_snp(n, l) + 0;
  put why_no_recv_snp_resp(n, l) + 0;
  put why_no_recv_data(n, l) + 0;
  put why_no_recv_comp(n, l) + 0;
  put why_no_recv_ack(n, l) + 0;
  put why_no_recv_dbid(n, l) + 0;
  put why_no_recv_wr_data(n, l) + 0;
end;

procedure say_all_refusals();
begin
  put "state ";
  say_slice();
  put " ";
  for n: agent do for l: line do say_refusals(n, l); end; end;
  put "\n";
end;

procedure say_place(n: agent; l: line);
begin put "("; put n + 0; put ","; put l + 0; end;

procedure say_before();
begin if listing then put "step "; say_slice(); put " "; end; end;

procedure say_nothing(n: agent; l: line);
begin if listing then say_place(n, l); put ") Nothing "; end; end;

procedure say_completed(n: agent; l: line; s: slot);
begin if listing then say_place(n, l); put ") Completed("; put s + 0; put ") "; end; end;

procedure say_after();
begin if listing then say_slice(); put "\n"; end; end;

------------------------------------------------------------------------------------------------------------------------
-- "One line": the opening state

startstate "opening"
begin
  for l: line do
    for n: agent do
      lanes[l][n].state := I;
      lanes[l][n].data := 0;
      end_pending(n, l);
      lanes[l][n].named := false;
      forget(lanes[l][n].waiting);
      lanes[l][n].awaited := false;
      take_req(n, l);
      lanes[l][n].snp := NoSnp;
      lanes[l][n].rsp_down := NoRspDown;
      lanes[l][n].dat_down := NoDatDown;
      lanes[l][n].down := 0;
      lanes[l][n].rsp_up := NoRspUp;
      take_dat_up(n, l);
    end;
    homes[l].memory := 0;
    homes[l].unique := false;
    homes[l].owner := nobody;
    end_service(l);
    homes[l].last := 0;
  end;
end;

rule "listing" listing ==> begin say_all_refusals(); end;

ruleset n: agent; l: line do

  rule "Load" why_no_load(n, l) = Allowed ==>
  begin
    assert "the journal is legal" lanes[l][n].data = homes[l].last;
    say_before();
    if listing then put "Load"; say_place(n, l); put ") Value("; put lanes[l][n].data + 0; put ") "; end;
    say_after();
  end;

  ruleset v: value do
    rule "Store" why_no_store(n, l) = Allowed ==>
    begin
      say_before();
      if listing then put "Store"; say_place(n, l); put ","; put v + 0; put ") Nothing "; end;
      store(n, l, v);
      say_after();
    end;
  end;

  rule "Drop" why_no_drop(n, l) = Allowed ==>
  begin
    say_before(); if listing then put "Drop"; end; say_nothing(n, l);
    invalidate(n, l);
    say_after();
  end;

  ruleset k: kind; s: slot do
    rule "Issue" k != NoKind & why_no_issue(n, l, k, s) = Allowed ==>
    begin
      say_before();
      if listing then
        put "Issue"; say_place(n, l); put ","; say_kind(k); put ","; put s + 0; put ") Nothing ";
      end;
      issue(n, l, k, s);
      say_after();
    end;
  end;

  rule "Admit" why_no_admit(n, l) = Allowed ==>
  begin
    say_before(); if listing then put "Admit"; end; say_nothing(n, l);
    admit(n, l);
    say_after();
  end;

  rule "Retry" why_no_retry(n, l) = Allowed ==>
  begin
    say_before(); if listing then put "Retry"; end; say_nothing(n, l);
    retry(n, l);
    say_after();
  end;

  rule "RecvRetry" why_no_recv_retry(n, l) = Allowed ==>
  begin
    say_before(); if listing then put "RecvRetry"; end; say_nothing(n, l);
    recv_retry(n, l);
    say_after();
  end;

  rule "Resend" why_no_resend(n, l) = Allowed ==>
  begin
    say_before(); if listing then put "Resend"; end; say_nothing(n, l);
    resend(n, l);
    say_after();
  end;

  rule "Cancel" why_no_cancel(n, l) = Allowed ==>
  begin
    say_before(); if listing then put "Cancel"; end; say_nothing(n, l);
    end_pending(n, l);
    say_after();
  end;

  rule "Start" why_no_start(n, l) = Allowed ==>
  begin
    say_before(); if listing then put "Start"; end;
    if lanes[l][n].waiting.kind = Evict then
      say_completed(n, l, lanes[l][n].waiting.slot);
    else
      say_nothing(n, l);
    end;
    start(n, l);
    say_after();
  end;

  rule "RecvSnp" why_no_recv_snp(n, l) = Allowed ==>
  begin
    say_before(); if listing then put "RecvSnp"; end; say_nothing(n, l);
    recv_snp(n, l);
    say_after();
  end;

  rule "RecvSnpResp" why_no_recv_snp_resp(n, l) = Allowed ==>
  begin
    say_before(); if listing then put "RecvSnpResp"; end; say_nothing(n, l);
    recv_snp_resp(n, l);
    say_after();
  end;

  rule "RecvData" why_no_recv_data(n, l) = Allowed ==>
  begin
    say_before(); if listing then put "RecvData"; end; say_nothing(n, l);
    recv_data(n, l);
    say_after();
  end;

  rule "RecvComp" why_no_recv_comp(n, l) = Allowed ==>
  begin
    say_before(); if listing then put "RecvComp"; end; say_nothing(n, l);
    recv_comp(n, l);
    say_after();
  end;

  rule "RecvAck" why_no_recv_ack(n, l) = Allowed ==>
  begin
    say_before(); if listing then put "RecvAck"; end; say_completed(n, l, homes[l].request.slot);
    recv_ack(n, l);
    say_after();
  end;

  rule "RecvDbid" why_no_recv_dbid(n, l) = Allowed ==>
  begin
    say_before(); if listing then put "RecvDbid"; end; say_nothing(n, l);
    recv_dbid(n, l);
    say_after();
  end;

  rule "RecvWrData" why_no_recv_wr_data(n, l) = Allowed ==>
  begin
    say_before(); if listing then put "RecvWrData"; end; say_completed(n, l, homes[l].request.slot);
    recv_wr_data(n, l);
    say_after();
  end;

end;

------------------------------------------------------------------------------------------------------------------------
-- "Coherence"

function is_unique(s: state): boolean;
begin return s = UC | s = UD; end;

function is_dirty(s: state): boolean;
begin return s = UD | s = SD; end;

function passes_dirty(m: dat_up): boolean;
begin
  return m = SnpRespData_I_PD | m = SnpRespData_SC_PD | m = CopyBackWrData_UD_PD | m = CopyBackWrData_SD_PD;
end;

invariant "unique holder"
  forall l: line do forall n: agent do
    is_unique(lanes[l][n].state) -> (forall m: agent do m = n | lanes[l][m].state = I end)
  end end;

invariant "named"
  forall l: line do forall n: agent do lanes[l][n].state != I -> lanes[l][n].named end end;

invariant "valid data"
  forall l: line do forall n: agent do lanes[l][n].state != I -> lanes[l][n].data = homes[l].last end end;

invariant "memory"
  forall l: line do
    (exists n: agent do is_dirty(lanes[l][n].state) | passes_dirty(lanes[l][n].dat_up) end) |
    homes[l].memory = homes[l].last
  end;

invariant "one owner"
  forall l: line do forall n: agent do forall m: agent do
    lanes[l][n].state = SD & lanes[l][m].state = SD -> n = m
  end end end;

------------------------------------------------------------------------------------------------------------------------
-- "What a line keeps", with the names of that section

invariant "unique_flagged"
  forall l: line do forall n: agent do is_unique(lanes[l][n].state) -> homes[l].unique end end;

function fits(k: kind; s: state): boolean;
begin
  switch k
    case CleanUnique: return s = I | s = SC | s = SD;
    case WriteBackFull, WriteCleanFull: return s = I | s = SC | s = UD | s = SD;
    case WriteEvictFull: return s = I | s = SC | s = UC;
    else return s = I;
  end;
end;

invariant "kind_fits"
  forall l: line do forall n: agent do
    lanes[l][n].phase != NoRequest -> fits(lanes[l][n].pending.kind, lanes[l][n].state)
  end end;

-- one_place: the places where a pending request can be
function one_if(it: boolean): count;
begin if it then return 1; end; return 0; end;

function is_snooped_for(n: agent; l: line): boolean;
begin return homes[l].serving = Snooping & homes[l].served = n; end;

function places(n: agent; l: line): count;
begin
  alias it: lanes[l][n] do
    return one_if(it.req.kind != NoKind) + one_if(it.waiting.kind != NoKind) + one_if(is_snooped_for(n, l)) +
      one_if(it.dat_down != NoDatDown) + one_if(it.rsp_down != NoRspDown) + one_if(it.phase = Retried);
  end;
end;

invariant "one_place"
  forall l: line do forall n: agent do places(n, l) = one_if(lanes[l][n].phase != NoRequest) end end;

function is_pending(n: agent; l: line; k: kind; s: slot): boolean;
begin return lanes[l][n].pending.kind = k & lanes[l][n].pending.slot = s; end;

invariant "a request has the kind and the slot of the pending one"
  forall l: line do forall n: agent do
    (lanes[l][n].req.kind != NoKind -> is_pending(n, l, lanes[l][n].req.kind, lanes[l][n].req.slot)) &
    (lanes[l][n].waiting.kind != NoKind -> is_pending(n, l, lanes[l][n].waiting.kind, lanes[l][n].waiting.slot)) &
    (is_snooped_for(n, l) -> is_pending(n, l, homes[l].request.kind, homes[l].request.slot))
  end end;

invariant "a response is to the pending request"
  forall l: line do forall n: agent do
    (lanes[l][n].rsp_down = Comp_UC -> is_pending(n, l, CleanUnique, homes[l].request.slot)) &
    (lanes[l][n].rsp_down = Comp_I -> lanes[l][n].pending.kind = Evict) &
    (lanes[l][n].dat_down != NoDatDown ->
      is_read(lanes[l][n].pending.kind) & lanes[l][n].pending.slot = homes[l].request.slot) &
    (lanes[l][n].rsp_down = CompDBIDResp -> is_pending(n, l, homes[l].request.kind, homes[l].request.slot))
  end end;

invariant "snooped_alone"
  forall l: line do forall n: agent do is_snooped_for(n, l) -> !lanes[l][n].awaited end end;

invariant "read_finds_none"
  forall l: line do forall n: agent do lanes[l][n].dat_down != NoDatDown -> lanes[l][n].state = I end end;

invariant "one_ack"
  forall l: line do forall n: agent do
    one_if(lanes[l][n].dat_down != NoDatDown) + one_if(lanes[l][n].rsp_down = Comp_UC) +
      one_if(lanes[l][n].rsp_up = CompAck) = one_if(homes[l].serving = AwaitingCompAck & homes[l].served = n)
  end end;

invariant "one_write"
  forall l: line do forall n: agent do
    one_if(lanes[l][n].rsp_down = CompDBIDResp) + one_if(is_write_data(lanes[l][n].dat_up)) =
      one_if(homes[l].serving = AwaitingWriteData & homes[l].served = n)
  end end;

invariant "ack_apart, write_apart"
  forall l: line do forall n: agent do
    (lanes[l][n].rsp_up = CompAck | is_write_data(lanes[l][n].dat_up)) & lanes[l][n].phase != NoRequest ->
      lanes[l][n].pending.slot != homes[l].request.slot
  end end;

invariant "read_last, read_flagged, read_named"
  forall l: line do forall n: agent do
    lanes[l][n].dat_down != NoDatDown ->
      lanes[l][n].down = homes[l].last & lanes[l][n].named & (lanes[l][n].dat_down = CompData_UC -> homes[l].unique)
  end end;

invariant "comp_flagged, comp_named"
  forall l: line do forall n: agent do
    lanes[l][n].rsp_down = Comp_UC -> homes[l].unique & lanes[l][n].named
  end end;

function answers(n: agent; l: line): count;
begin
  alias it: lanes[l][n] do
    return one_if(it.snp != NoSnp) + one_if(it.rsp_up = SnpResp_I | it.rsp_up = SnpResp_SC) +
      one_if(is_answer(it.dat_up));
  end;
end;

invariant "one_answer"
  forall l: line do forall n: agent do answers(n, l) = one_if(lanes[l][n].awaited) end end;

invariant "a snoop is of the kind that is served, and whoever is awaited is named"
  forall l: line do forall n: agent do
    (lanes[l][n].snp != NoSnp -> lanes[l][n].snp = snoop_of(homes[l].request.kind)) &
    (lanes[l][n].awaited -> lanes[l][n].named & homes[l].serving = Snooping)
  end end;

function is_sharing(k: kind): boolean;
begin return k = ReadNotSharedDirty | k = ReadShared; end;

invariant "others_awaited"
  forall l: line do forall n: agent do
    homes[l].serving = Snooping & !is_sharing(homes[l].request.kind) & lanes[l][n].named & homes[l].served != n ->
      lanes[l][n].awaited
  end end;

invariant "shared_asks_one"
  forall l: line do forall n: agent do
    is_sharing(homes[l].request.kind) & lanes[l][n].awaited & homes[l].owner != n -> homes[l].unique
  end end;

invariant "an answer still fits the copy that gave it"
  forall l: line do forall n: agent do
    (lanes[l][n].rsp_up = SnpResp_I -> lanes[l][n].state = I) &
    (lanes[l][n].rsp_up = SnpResp_SC ->
      !is_unique(lanes[l][n].state) & !is_dirty(lanes[l][n].state) & is_sharing(homes[l].request.kind)) &
    (is_answer(lanes[l][n].dat_up) -> lanes[l][n].up = homes[l].last) &
    (lanes[l][n].dat_up = SnpRespData_I_PD -> lanes[l][n].state = I) &
    (lanes[l][n].dat_up = SnpRespData_SC_PD -> !is_unique(lanes[l][n].state) & !is_dirty(lanes[l][n].state)) &
    (lanes[l][n].dat_up = SnpRespData_SD -> lanes[l][n].state = SD & homes[l].request.kind = ReadShared)
  end end;

invariant "dirty_named"
  forall l: line do forall n: agent do passes_dirty(lanes[l][n].dat_up) -> lanes[l][n].named end end;

invariant "write_last"
  forall l: line do forall n: agent do
    lanes[l][n].dat_up = CopyBackWrData_UD_PD | lanes[l][n].dat_up = CopyBackWrData_SD_PD ->
      lanes[l][n].up = homes[l].last | lanes[l][n].state = UD
  end end;

invariant "write_not_shared_dirty, write_gone, write_none"
  forall l: line do forall n: agent do
    is_write_data(lanes[l][n].dat_up) ->
      lanes[l][n].state != SD & (homes[l].request.kind != WriteCleanFull -> lanes[l][n].state = I) &
      (lanes[l][n].dat_up = CopyBackWrData_I -> lanes[l][n].state = I)
  end end;

invariant "flag_no_owner"
  forall l: line do homes[l].unique -> homes[l].owner = nobody end;

invariant "owner_holds"
  forall l: line do forall n: agent do
    homes[l].owner = n ->
      lanes[l][n].named & (lanes[l][n].state = SD | lanes[l][n].dat_up = CopyBackWrData_SD_PD |
        lanes[l][n].rsp_up = SnpResp_I | lanes[l][n].rsp_up = SnpResp_SC | is_answer(lanes[l][n].dat_up))
  end end;

invariant "shared_dirty_owned"
  forall l: line do forall n: agent do
    lanes[l][n].state = SD ->
      homes[l].owner = n | lanes[l][n].rsp_down = Comp_UC | lanes[l][n].dat_up = SnpRespData_SD
  end end;

invariant "flag_means_one"
  forall l: line do forall n: agent do forall m: agent do
    homes[l].unique & lanes[l][n].named & lanes[l][m].named -> n = m
  end end end;

invariant "write data is awaited of a copy-back alone, and somebody is served or the line is idle"
  forall l: line do
    (homes[l].serving = AwaitingWriteData -> is_copy_back(homes[l].request.kind)) &
    (homes[l].serving = Idle) = (homes[l].served = nobody)
  end;
