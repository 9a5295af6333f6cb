-- One line and its observer, written from docs/OBSERVER.md alone, in the language of the Murphi checkers: the truth of the
-- line (a world: "Worlds") and beside it what flits have told ("What is kept"). In each state, and each way of going on:
--
--  * each flit of a cache that the world sends is taken;
--  * each flit of the home that is taken leaves a world that is coherent, and completes a CleanShared or a ReadOnce behind
--    its moment;
--  * what is told is above what is true.
--
-- A line has one word, with the values 0 to `largest`. tests/murphi/run sets the constants. The names are the page's.

const
  agents: 2;
  largest: 1;
  kinds: 1;      -- which kinds of request and snoops there are: a row of `is_there`, `is_sent`
  accesses: false;  -- whether there are loads and stores that are seen
  hidden: true;     -- whether stores may be hidden; if not, all are seen ("Stores that are listed")

  unknown: largest + 1;

type
  agent: scalarset (agents);
  value: 0 .. largest;
  knowledge: 0 .. largest + 1;

  copy: enum { I, SC, UC, UCE, UD, SD, Writing };
  told: enum { ToldI, ToldSC, SCOrI, ToldUC, UCOrI, ToldUCE, UCEOrI, UCOrUCE, ToldUD, ToldSD, ToldWriting };
  kind: enum { NoKind, ReadNotSharedDirty, ReadShared, ReadClean, ReadOnce, ReadUnique, CleanUnique, MakeUnique,
               CleanShared, CleanInvalid, MakeInvalid, Evict, WriteBackFull, WriteCleanFull, WriteEvictFull,
               WriteUniqueFull };
  due: enum { Nothing, Completion, SureCompletion, Resending, WriteData, Acknowledgement };
  snoop: enum { NoSnoop, SnpOnce, SnpClean, SnpShared, SnpNotSharedDirty, SnpCleanShared, SnpUnique, SnpCleanInvalid,
                SnpMakeInvalid };
  answer: enum { SnpResp_I, SnpResp_SC, SnpResp_UC, SnpRespData_I, SnpRespData_SC, SnpRespData_UC, SnpRespData_UD,
                 SnpRespData_SD, SnpRespData_I_PD, SnpRespData_SC_PD, SnpRespData_UC_PD };

  lane: record
    -- the world
    copy: copy;
    word: value;         -- 0 of a copy without data
    cancelled: boolean;
    moment: boolean;     -- of a CleanShared: there was one since its issue
    values: array [value] of boolean;  -- of a ReadOnce: each that the home had while it was the last, since its issue
    -- what is told
    told: told;
    surely: boolean;     -- cancelled
    due: due;
    kind: kind;          -- of what is due
    snooped: snoop;
    shown: boolean;
  end;

var
  lanes: array [agent] of lane;
  last: value;
  home: value;
  known: knowledge;  -- the home's words, where flits have shown them
  current: boolean;
  stored: knowledge; -- the word of the value last stored that stores and loads told, while it isn't the home's
  duty: boolean;
  thrown: boolean;

------------------------------------------------------------------------------------------------------------------------
-- Copies ("What is told of a copy")

function has_data(c: copy): boolean;
begin return c = SC | c = UC | c = UD | c = SD; end;

function is_unique(c: copy): boolean;
begin return c = UC | c = UCE | c = UD; end;

function is_dirty(c: copy): boolean;
begin return c = UD | c = SD; end;

function is_clean(c: copy): boolean;
begin return c = SC | c = UC | c = UCE; end;

-- Beside a unique one, and while the data of a WriteUniqueFull are due, there is none; one is dirty.
function go_together(c: copy; d: copy): boolean;
begin
  return c = I | d = I | (c = SC & (d = SC | d = SD)) | (c = SD & d = SC);
end;

function strongest(t: told): copy;
begin
  switch t
    case ToldI: return I;
    case ToldSC, SCOrI: return SC;
    case ToldUC, UCOrI, UCOrUCE: return UC;
    case ToldUCE, UCEOrI: return UCE;
    case ToldUD: return UD;
    case ToldSD: return SD;
    case ToldWriting: return Writing;
  end;
end;

function may_be(t: told; c: copy): boolean;
begin
  switch t
    case SCOrI: return c = SC | c = I;
    case UCOrI: return c = UC | c = I;
    case UCEOrI: return c = UCE | c = I;
    case UCOrUCE: return c = UC | c = UCE;
    else return c = strongest(t);
  end;
end;

function may_be_later(t: told; c: copy): boolean;
begin
  return may_be(t, c) | (hidden & is_unique(strongest(t)) & c = UD) | (is_clean(strongest(t)) & c = I);
end;

function told_as(c: copy): told;
begin
  switch c
    case I: return ToldI;
    case SC: return ToldSC;
    case UC: return ToldUC;
    case UCE: return ToldUCE;
    case UD: return ToldUD;
    case SD: return ToldSD;
    case Writing: return ToldWriting;
  end;
end;

------------------------------------------------------------------------------------------------------------------------
-- Requests

function is_there(k: kind): boolean;
begin
  switch kinds
    case 1: return k = ReadShared | k = ReadUnique | k = WriteBackFull;
    case 2: return k = ReadNotSharedDirty | k = CleanUnique | k = Evict;
    case 3: return k = ReadClean | k = CleanShared | k = WriteCleanFull;
    case 4: return k = ReadUnique | k = ReadOnce | k = WriteUniqueFull;
    case 5: return k = MakeUnique | k = MakeInvalid | k = WriteEvictFull;
    case 6: return k = ReadShared | k = CleanInvalid | k = ReadOnce;
    else return k != NoKind;
  end;
end;

function is_sent(s: snoop): boolean;
begin
  switch kinds
    case 1: return s = SnpShared | s = SnpUnique;
    case 2: return s = SnpNotSharedDirty | s = SnpCleanInvalid;
    case 3: return s = SnpClean | s = SnpCleanShared;
    case 4: return s = SnpOnce | s = SnpUnique | s = SnpMakeInvalid;
    case 5: return s = SnpCleanInvalid | s = SnpMakeInvalid;
    case 6: return s = SnpOnce | s = SnpCleanInvalid;
    else return s != NoSnoop;
  end;
end;

function is_copy_back(k: kind): boolean;
begin return k = WriteBackFull | k = WriteCleanFull | k = WriteEvictFull; end;

function may_issue(k: kind; c: copy): boolean;
begin
  switch k
    case ReadNotSharedDirty, ReadShared, ReadClean: return c = I | c = UCE;
    case ReadUnique, CleanUnique, MakeUnique: return c = I | c = UCE | c = SC | c = SD;
    case CleanShared: return c = I | c = SC | c = UC;
    case ReadOnce, CleanInvalid, MakeInvalid, WriteUniqueFull: return c = I;
    case Evict: return c = SC | c = UC | c = UCE;
    case WriteBackFull, WriteCleanFull: return c = UD | c = SD;
    case WriteEvictFull: return c = UC;
    else return false;
  end;
end;

-- What is told behind a request: of the copies that it may have been sent from, all that are left.
function told_issued(k: kind; t: told): told;
begin
  switch k
    case ReadNotSharedDirty, ReadShared, ReadClean:
      if may_be_later(t, UCE) then return UCEOrI; end;
      return ToldI;
    case ReadUnique, CleanUnique, MakeUnique:
      if may_be_later(t, UCE) then return UCEOrI; end;
      if may_be_later(t, SC) then return SCOrI; end;
      if may_be_later(t, SD) then return ToldSD; end;
      return ToldI;
    case CleanShared:
      if may_be_later(t, SC) then return SCOrI; end;
      if may_be_later(t, UC) then return UCOrI; end;
      return ToldI;
    case WriteBackFull, WriteCleanFull:
      if may_be_later(t, SD) then return ToldSD; end;
      return ToldUD;
    case WriteEvictFull: return ToldUC;
    else return ToldI;
  end;
end;

function may_be_free(d: due): boolean;
begin return d = Nothing | d = Resending; end;

-- no request is open, or one that was cancelled
function is_free(n: agent): boolean;
begin return lanes[n].due = Nothing | (lanes[n].due = Resending & lanes[n].cancelled); end;

function is_busy(): boolean;
begin return exists m: agent do lanes[m].due = Acknowledgement | lanes[m].due = WriteData end; end;

-- whether the completion of its request may come
function is_open(n: agent): boolean;
begin return lanes[n].due = Completion | lanes[n].due = SureCompletion; end;

function awaits_moment(n: agent): boolean;
begin return (is_open(n) | lanes[n].due = Resending) & (lanes[n].kind = CleanShared | lanes[n].kind = ReadOnce); end;

------------------------------------------------------------------------------------------------------------------------
-- Answers

function left(a: answer): copy;
begin
  switch a
    case SnpResp_I, SnpRespData_I, SnpRespData_I_PD: return I;
    case SnpResp_SC, SnpRespData_SC, SnpRespData_SC_PD: return SC;
    case SnpResp_UC, SnpRespData_UC, SnpRespData_UC_PD: return UC;
    case SnpRespData_UD: return UD;
    case SnpRespData_SD: return SD;
  end;
end;

function shows(a: answer): boolean;
begin return a != SnpResp_I & a != SnpResp_SC & a != SnpResp_UC; end;

function passes(a: answer): boolean;
begin return a = SnpRespData_I_PD | a = SnpRespData_SC_PD | a = SnpRespData_UC_PD; end;

function tells_dirty(a: answer): boolean;
begin return passes(a) | a = SnpRespData_UD | a = SnpRespData_SD; end;

function lets(s: snoop; a: answer): boolean;
begin
  switch s
    case SnpOnce: return true;
    case SnpClean, SnpShared, SnpNotSharedDirty: return left(a) = SC | left(a) = SD | left(a) = I;
    case SnpCleanShared: return left(a) = SC | left(a) = UC | left(a) = I;
    case SnpUnique, SnpCleanInvalid: return left(a) = I;
    case SnpMakeInvalid: return a = SnpResp_I;
    else return false;
  end;
end;

function may_answer(a: answer; s: snoop; c: copy): boolean;
begin
  switch a
    case SnpResp_I: return c = I | is_clean(c) | (s = SnpMakeInvalid & is_dirty(c));
    case SnpResp_SC, SnpRespData_SC, SnpRespData_I: return c = SC | c = UC;
    case SnpResp_UC: return c = UC | c = UCE;
    case SnpRespData_UC: return c = UC;
    case SnpRespData_UD, SnpRespData_UC_PD: return c = UD;
    else return is_dirty(c);
  end;
end;

-- Whether some copy that the agent may have is one from which it is given: a store may have been where no request is open.
function may_give(a: answer; n: agent): boolean;
begin
  return exists c: copy do
    may_answer(a, lanes[n].snooped, c)
      & (may_be(lanes[n].told, c) | (may_be_free(lanes[n].due) & may_be_later(lanes[n].told, c)))
  end;
end;

function told_answered(a: answer; t: told): told;
begin
  if a != SnpResp_UC then return told_as(left(a)); end;
  if may_be(t, UC) & may_be(t, UCE) then return UCOrUCE; end;
  if may_be(t, UCE) then return ToldUCE; end;
  return ToldUC;
end;

------------------------------------------------------------------------------------------------------------------------
-- What is kept

function fits(v: value): boolean;
begin return known = unknown | known = v; end;

function fits_stored(v: value): boolean;
begin return current | stored = unknown | stored = v; end;

-- The word of a load: any where a store may have been that nobody saw, if only behind a CompAck.
function may_load_any(n: agent): boolean;
begin
  return hidden & is_unique(strongest(lanes[n].told)) & (may_be_free(lanes[n].due) | lanes[n].due = Acknowledgement);
end;

function may_load(n: agent; v: value): boolean;
begin return may_load_any(n) | ((!current | fits(v)) & fits_stored(v)); end;

-- Which tells of that store where it isn't the known one.
function tells_store(n: agent; v: value): boolean;
begin
  return may_load_any(n) & has_data(strongest(lanes[n].told)) & (current ? !fits(v) : !fits_stored(v));
end;

function may_be_stored(m: agent; tells: boolean): boolean;
begin return hidden & !tells & may_be_free(lanes[m].due) & is_unique(strongest(lanes[m].told)); end;

-- "A moment": by what is told right behind a flit of n, or to it, which tells of its copy or doesn't.
function is_told_moment(o: agent; n: agent; tells: boolean): boolean;
begin
  if lanes[o].kind = ReadOnce then
    return current & !exists m: agent do may_be_stored(m, tells & m = n) end;
  end;
  return (is_dirty(strongest(lanes[o].told)) | current)
    & forall m: agent do
        m = o | !(is_dirty(strongest(lanes[m].told)) | may_be_stored(m, tells & m = n))
      end;
end;

-- and by what is true
procedure look_at_moments(o: agent);
begin
  if lanes[o].kind = ReadOnce then
    if home = last then lanes[o].values[home] := true; end;
  elsif (is_dirty(lanes[o].copy) | home = last) & forall m: agent do m = o | !is_dirty(lanes[m].copy) end then
    lanes[o].moment := true;
  end;
end;

procedure forget_moments(o: agent);
begin
  lanes[o].moment := false;
  for v: value do lanes[o].values[v] := false; end;
end;

-- Behind each flit.
procedure follow(n: agent; tells: boolean; issues: boolean);
begin
  if issues then
    lanes[n].shown := false;
    forget_moments(n);
  end;
  for o: agent do
    if awaits_moment(o) then
      lanes[o].shown := lanes[o].shown | is_told_moment(o, n, tells);
      look_at_moments(o);
    else
      lanes[o].shown := false;
      forget_moments(o);
    end;
  end;
end;

procedure hold(n: agent; c: copy; v: value);
begin
  lanes[n].copy := c;
  if has_data(c) then lanes[n].word := v; else lanes[n].word := 0; end;
end;

procedure show(v: value);
begin
  known := v;
  current := true;
  stored := unknown;
  thrown := false;
end;

-- ("Words that are known": none behind a flit that tells of a store, nor of a copy to which one may be done that nobody sees,
-- but where a request was retried, and the flit isn't another one)
procedure forget_word(n: agent; renewed: boolean; issues: boolean);
begin
  if renewed
      | (hidden & may_be_free(lanes[n].due) & is_unique(strongest(lanes[n].told)) & (lanes[n].due != Resending | issues)) then
    stored := unknown;
  end;
end;

procedure await(n: agent; d: due; k: kind);
begin
  lanes[n].due := d;
  lanes[n].kind := k;
  if d != Resending then
    lanes[n].cancelled := false;
    lanes[n].surely := false;
  end;
end;

------------------------------------------------------------------------------------------------------------------------
-- Hidden steps

ruleset n: agent; v: value do
  rule "store"
    hidden & is_free(n) & is_unique(lanes[n].copy)
  ==>
  begin
    hold(n, UD, v);
    last := v;
  end;
end;

ruleset n: agent do
  rule "drop"
    is_free(n) & is_clean(lanes[n].copy)
  ==>
  begin hold(n, I, 0); end;

  rule "cancel"
    lanes[n].due = Resending & !lanes[n].cancelled
  ==>
  begin lanes[n].cancelled := true; end;
end;

------------------------------------------------------------------------------------------------------------------------
-- "Flits of a cache"

ruleset n: agent; k: kind do
  rule "request"
    is_there(k) & is_free(n) & may_issue(k, lanes[n].copy)
  ==>
  begin
    assert "a request is taken"
      may_be_free(lanes[n].due) & exists c: copy do may_be_later(lanes[n].told, c) & may_issue(k, c) end;
    forget_word(n, false, true);
    if hidden & (k = WriteBackFull | k = WriteCleanFull) & is_unique(strongest(lanes[n].told)) then current := false; end;
    lanes[n].told := told_issued(k, lanes[n].told);
    if k = Evict then hold(n, I, 0); end;
    await(n, Completion, k);
    follow(n, true, true);
  end;
end;

ruleset n: agent do
  rule "request again"
    lanes[n].due = Resending & !lanes[n].cancelled
  ==>
  begin
    assert "a request is taken again" !lanes[n].surely;
    await(n, SureCompletion, lanes[n].kind);
    follow(n, true, true);
  end;
end;

-- v is what is the last value of a copy that is thrown away
ruleset n: agent; a: answer; v: value do
  rule "answer"
    lanes[n].snooped != NoSnoop & lets(lanes[n].snooped, a) & may_answer(a, lanes[n].snooped, lanes[n].copy)
      & (v = 0 | (hidden & lanes[n].snooped = SnpMakeInvalid))
  ==>
  var throws: boolean;
  var renewed: boolean;
  var others: boolean;  -- its word is known to be another than the value: than the home's, or than the one that was loaded
  begin
    throws := lanes[n].snooped = SnpMakeInvalid;
    renewed := hidden & may_be_free(lanes[n].due) & is_unique(strongest(lanes[n].told)) & (tells_dirty(a) | throws);
    others := shows(a) & (current ? !fits(lanes[n].word) : !fits_stored(lanes[n].word));
    assert "an answer is taken" may_give(a, n) & (!others | renewed);
    forget_word(n, renewed, false);
    -- (of a copy that was told UD another word alone tells of a cancel)
    if hidden & lanes[n].due = Resending & tells_dirty(a) & is_unique(strongest(lanes[n].told))
        & (others | lanes[n].told != ToldUD) then
      lanes[n].surely := true;
    end;
    if hidden & throws & is_unique(lanes[n].copy) & may_be_free(lanes[n].due) then last := v; end;
    lanes[n].told := told_answered(a, lanes[n].told);
    if shows(a) then
      home := lanes[n].word;
      show(home);
    else
      if renewed then current := false; end;
      if throws then thrown := true; end;
    end;
    if passes(a) then duty := true; end;
    if a != SnpResp_UC then hold(n, left(a), lanes[n].word); end;
    lanes[n].snooped := NoSnoop;
    follow(n, true, false);
  end;
end;

ruleset n: agent do
  rule "CompAck"
    lanes[n].due = Acknowledgement
  ==>
  begin
    await(n, Nothing, NoKind);
    follow(n, true, false);
  end;
end;

-- in the form of the copy, or, of one that isn't dirty, in I
ruleset n: agent; form: copy do
  rule "CopyBackWrData"
    lanes[n].due = WriteData & is_copy_back(lanes[n].kind)
      & ((form = lanes[n].copy & has_data(form)) | (form = I & !is_dirty(lanes[n].copy)))
  ==>
  var then_left: copy;
  begin
    assert "write data are taken"
      exists c: copy do
        may_be(lanes[n].told, c) & (c = form | (form = I & !is_dirty(c)))
      end
      & (form = I | ((!current | fits(lanes[n].word)) & fits_stored(lanes[n].word)));
    then_left := I;
    if lanes[n].kind = WriteCleanFull then
      switch form
        case UD: then_left := UC;
        case SD: then_left := SC;
        else then_left := form;
      end;
    end;
    if has_data(form) then
      home := lanes[n].word;
      show(home);
    end;
    if is_dirty(form) then duty := true; end;
    hold(n, then_left, lanes[n].word);
    lanes[n].told := told_as(then_left);
    await(n, Nothing, NoKind);
    follow(n, true, false);
  end;
end;

ruleset n: agent; v: value do
  rule "NonCopyBackWrData"
    lanes[n].due = WriteData & lanes[n].kind = WriteUniqueFull
  ==>
  begin
    assert "a whole write is taken" lanes[n].told = ToldWriting;
    last := v;
    home := v;
    show(v);
    duty := true;
    hold(n, I, 0);
    lanes[n].told := ToldI;
    await(n, Nothing, NoKind);
    follow(n, true, false);
  end;
end;

ruleset n: agent do
  rule "load"
    accesses & has_data(lanes[n].copy)
  ==>
  begin
    assert "a load is taken"
      (has_data(strongest(lanes[n].told)) | (hidden & may_be_free(lanes[n].due) & is_unique(strongest(lanes[n].told))))
      & may_load(n, lanes[n].word);
    if strongest(lanes[n].told) = UCE | tells_store(n, lanes[n].word) then
      current := false;
      stored := unknown;
      if lanes[n].due = Resending then lanes[n].surely := true; end;
      lanes[n].told := ToldUD;
    else
      if !current & !(may_load_any(n) & lanes[n].due = Acknowledgement) then stored := lanes[n].word; end;
      forget_word(n, false, false);
      lanes[n].told := told_as(strongest(lanes[n].told));
    end;
    follow(n, false, false);
  end;
end;

ruleset n: agent; v: value do
  rule "store that is seen"
    accesses & (is_free(n) | lanes[n].due = Acknowledgement) & is_unique(lanes[n].copy)
  ==>
  begin
    assert "a store is taken"
      (may_be_free(lanes[n].due) | lanes[n].due = Acknowledgement) & is_unique(strongest(lanes[n].told));
    hold(n, UD, v);
    last := v;
    current := false;
    if hidden then stored := unknown; else stored := v; end;
    lanes[n].surely := lanes[n].due = Resending;
    lanes[n].told := ToldUD;
    follow(n, true, false);
  end;
end;

------------------------------------------------------------------------------------------------------------------------
-- "Flits of the home"

-- What is told of n then goes with what all others were told.
function goes(n: agent; t: told; alone: boolean): boolean;
begin
  return forall m: agent do
    m = n | (go_together(strongest(t), strongest(lanes[m].told)) & (!alone | strongest(lanes[m].told) = I))
  end;
end;

function is_completed(n: agent; k: kind): boolean;
begin return is_open(n) & lanes[n].kind = k & (lanes[n].snooped = NoSnoop | k = Evict); end;

function completes(k: kind; form: copy): boolean;
begin
  switch k
    case ReadNotSharedDirty: return form = SC | form = UC | form = UD;
    case ReadShared: return form = SC | form = UC | form = UD | form = SD;
    case ReadClean: return form = SC | form = UC;
    case ReadUnique: return form = UC | form = UD;
    case ReadOnce: return form = I;
    else return false;
  end;
end;

function told_upgraded(t: told): told;
begin
  switch t
    case ToldI, ToldUCE, UCEOrI: return ToldUCE;
    case ToldSC: return ToldUC;
    case SCOrI, UCOrI: return UCOrUCE;
    case ToldSD: return ToldUD;
    else return t;
  end;
end;

ruleset n: agent do
  rule "RetryAck"
    lanes[n].due = Completion
  ==>
  begin
    lanes[n].due := Resending;
    follow(n, true, false);
  end;
end;

ruleset n: agent; s: snoop do
  rule "snoop"
    is_sent(s) & lanes[n].snooped = NoSnoop & !is_busy()
      & (s != SnpMakeInvalid
         | exists m: agent do
             m != n & is_open(m)
               & (lanes[m].kind = MakeUnique | lanes[m].kind = MakeInvalid | lanes[m].kind = WriteUniqueFull)
           end)
  ==>
  begin
    lanes[n].snooped := s;
    follow(n, false, false);
  end;
end;

ruleset n: agent; form: copy do
  rule "CompData"
    is_open(n) & completes(lanes[n].kind, form) & lanes[n].snooped = NoSnoop
      & (!is_dirty(form) | duty)
      & (form = I | is_dirty(strongest(lanes[n].told)) | current)
      & ((form != I & is_dirty(strongest(lanes[n].told))) | fits(home))
      & (form != I | lanes[n].shown)
      & (form = I | goes(n, is_dirty(strongest(lanes[n].told)) ? ToldUD : told_as(form), false))
  ==>
  begin
    if form = I | !is_dirty(strongest(lanes[n].told)) then known := home; end;
    if form = I then
      assert "a ReadOnce is shown a value of its time" lanes[n].values[home];
      await(n, Nothing, NoKind);
    else
      if is_dirty(strongest(lanes[n].told)) then lanes[n].told := ToldUD; else lanes[n].told := told_as(form); end;
      if is_dirty(lanes[n].copy) then lanes[n].copy := UD; else hold(n, form, home); end;
      await(n, Acknowledgement, NoKind);
    end;
    if is_dirty(form) then duty := false; end;
    follow(n, true, false);
  end;
end;

ruleset n: agent do
  rule "Comp_UC of CleanUnique"
    is_completed(n, CleanUnique) & goes(n, told_upgraded(lanes[n].told), false)
  ==>
  begin
    lanes[n].told := told_upgraded(lanes[n].told);
    switch lanes[n].copy
      case I: lanes[n].copy := UCE;
      case SC: lanes[n].copy := UC;
      case SD: lanes[n].copy := UD;
      else
    end;
    await(n, Acknowledgement, NoKind);
    follow(n, true, false);
  end;

  rule "completion of CleanShared"
    is_completed(n, CleanShared) & lanes[n].shown
  ==>
  begin
    assert "a CleanShared had its moment" lanes[n].moment;
    await(n, Nothing, NoKind);
    follow(n, true, false);
  end;

  rule "Comp_I of Evict"
    is_completed(n, Evict)
  ==>
  begin
    await(n, Nothing, NoKind);
    follow(n, true, false);
  end;

  rule "Comp_I of CleanInvalid"
    is_completed(n, CleanInvalid) & goes(n, lanes[n].told, true)
  ==>
  begin
    assert "no other copy is left" forall m: agent do m = n | lanes[m].copy = I end;
    await(n, Nothing, NoKind);
    follow(n, true, false);
  end;

  rule "Comp_I of MakeInvalid"
    is_completed(n, MakeInvalid) & goes(n, ToldI, true)
  ==>
  begin
    assert "no other copy is left" forall m: agent do m = n | lanes[m].copy = I end;
    lanes[n].told := ToldI;
    hold(n, I, 0);
    last := home;
    current := true;
    stored := unknown;
    thrown := false;
    await(n, Nothing, NoKind);
    follow(n, true, false);
  end;

  rule "CompDBIDResp"
    is_open(n) & lanes[n].snooped = NoSnoop
      & (is_copy_back(lanes[n].kind) | (lanes[n].kind = WriteUniqueFull & goes(n, ToldWriting, false)))
  ==>
  begin
    if lanes[n].kind = WriteUniqueFull then
      lanes[n].told := ToldWriting;
      lanes[n].copy := Writing;
    end;
    await(n, WriteData, lanes[n].kind);
    follow(n, true, false);
  end;
end;

ruleset n: agent; v: value do
  rule "Comp_UC of MakeUnique"
    is_completed(n, MakeUnique) & goes(n, ToldUD, false)
  ==>
  begin
    lanes[n].told := ToldUD;
    hold(n, UD, v);
    last := v;
    current := false;
    stored := unknown;
    thrown := false;
    await(n, Acknowledgement, NoKind);
    follow(n, true, false);
  end;
end;

------------------------------------------------------------------------------------------------------------------------
-- At first no cache has a copy, no request is open, and memory has any words.

ruleset v: value do
  startstate
  begin
    for n: agent do
      lanes[n].copy := I;
      lanes[n].word := 0;
      lanes[n].cancelled := false;
      lanes[n].told := ToldI;
      lanes[n].surely := false;
      lanes[n].due := Nothing;
      lanes[n].kind := NoKind;
      lanes[n].snooped := NoSnoop;
      lanes[n].shown := false;
      forget_moments(n);
    end;
    last := v;
    home := v;
    known := unknown;
    current := true;
    stored := unknown;
    duty := false;
    thrown := false;
  end;
end;

------------------------------------------------------------------------------------------------------------------------
-- "Coherent"

invariant "copies go together"
  forall n: agent do forall m: agent do n = m | go_together(lanes[n].copy, lanes[m].copy) end end;

invariant "each copy with data has the value last stored"
  forall n: agent do has_data(lanes[n].copy) -> lanes[n].word = last end;

invariant "the home has the value where nobody is dirty"
  thrown | home = last | exists n: agent do is_dirty(lanes[n].copy) end;

-- and what is told is above what is true
invariant "told"
  forall n: agent do
    (lanes[n].due = Resending & lanes[n].cancelled) | lanes[n].due = Nothing
      ? may_be_later(lanes[n].told, lanes[n].copy)
      : may_be(lanes[n].told, lanes[n].copy) & (lanes[n].due = Resending -> !lanes[n].surely)
  end;

invariant "the home's words"
  known = unknown | known = home;

invariant "the word that was stored or loaded"
  stored = unknown | stored = last
    | exists n: agent do hidden & is_free(n) & is_unique(strongest(lanes[n].told)) & lanes[n].copy = UD end;

invariant "the value is the home's, but for stores that nobody saw"
  current
    & !exists n: agent do hidden & is_free(n) & is_unique(strongest(lanes[n].told)) & lanes[n].copy = UD end
  -> last = home;
