# The spoilt engines: each is one edit of a file of the stand-in (the model behind the engine's interface).
# mutants.sh reads this list: NAME, FILE, EXPRESSION for sed, and the parts that must find it where it is not
# any.

# 01, "Slips to guard against"
slip leaver-stays events.rs '/gone.neighbours {/,/^    }/s/network.at_mut(neighbour).neighbours.remove(&peer);//'
slip leaver-subs-stay events.rs '/gone.neighbours {/,/^    }/s/unlearn(\*topic, peer)/at_nothing()/; $a trait N { fn at_nothing(\&mut self) {} }\nimpl N for Record {}'
slip back-to-seen events.rs 's/if !record.pending.contains(&message) && !record.seen.contains(&message) {/if !record.pending.contains(\&message) {/'
slip same-round calls.rs 's/    for (peer, message) in network.pending_pairs() {/    while let Some((peer, message)) = network.pending_pairs().first().copied() {/'
slip image-own-pending calls.rs 's/seen: record.seen.difference(&waiting)/seen: record.seen.difference(\&record.pending)/'
slip new-at-origin events.rs 's/    if !is_new(network, message) {/    if network.at(peer).pending.contains(\&message) || network.at(peer).seen.contains(\&message) {/'

# 01, useless versions
slip refuses-all calls.rs 's/    if state.len() == STATE_SIZE {/    if state.len() == 1 {/'
slip state-as-found calls.rs 's/^    state.copy_from_slice(&network.bytes());//'
slip first-event-only calls.rs 's/in events.chunks(EVENT_SIZE).enumerate() {/in events.chunks(EVENT_SIZE).enumerate().take(1) {/'
slip first-round-only calls.rs 's/    while forwards < budget \&\&/    if forwards < budget \&\&/'
slip invents-deliveries calls.rs 's/= receivers.len() as u32/= 2 * receivers.len() as u32/; s/= receivers.len() as u64/= 2 * receivers.len() as u64/'
slip invents-rounds calls.rs 's/        if finished {/        if made > 0 {/'

# soundness
slip still-5 calls.rs 's/number: fault.number(), detail: fault.detail()/number: 5, detail: 0/'
slip first-byte-2 soundness.rs 's/record.first > 1/record.first > 2/'
slip gap-byte-3 soundness.rs 's/record.gap != \[0, 0, 0\]/record.gap[..2] != [0, 0]/'
slip absent-not-blank soundness.rs 's/(\*network.at(p) != Record::default())/(network.at(p).neighbours.len() > 0)/'
slip own-neighbour soundness.rs 's/network.at(p).neighbours.contains(&p).then_some/false.then_some/'
slip neighbour-absent soundness.rs 's/find(|q| !network.present(\*\*q))/find(|_| false)/'
slip odd-neighbour-present state.rs 's/self.first == 1/self.first != 0/'
slip not-listed-back soundness.rs 's/find(|q| !network.at(\*\*q).neighbours.contains(&p))/find(|_| false)/'
slip blames-the-other soundness.rs '/^fn not_listed_back/,/^}/s/^    let lowest = .*/    let others: Vec<Peer> = all_peers().filter(|q| network.at(*q).neighbours.contains(\&p)).collect();\n    let lowest = others.iter().find(|q| !network.at(p).neighbours.contains(q));/'
slip known-last-topic soundness.rs 's/all_topics().find(wrong)/all_topics().take(31).find(wrong)/'
slip pending-and-seen soundness.rs 's/(!record.pending.is_disjoint(&record.seen))/false/'

# which record, which rule
slip highest-unsound soundness.rs '/fn lowest_fault/,/^    }/s/all_peers().find_map(\(.*\))$/all_peers().filter_map(\1).last()/'
slip lowest-rule-first soundness.rs '/fn lowest_fault/,/^    }/s/all_peers().find_map(\(.*\))$/all_peers().filter_map(\1).min_by_key(|(_, fault)| fault.number())/' '--only check'
slip highest-rule soundness.rs 's/self.faults(p).first()/self.faults(p).last()/'
slip numbers-23-24 soundness.rs 's/NeighbourAbsent(_) => 23/NeighbourAbsent(_) => 24/; s/NotListedBack(_) => 24/NotListedBack(_) => 23/'
slip order-20-21 soundness.rs 's/\[first_bytes, absent_not_blank\]/[absent_not_blank, first_bytes]/'
slip order-20-22 soundness.rs 's/\[first_bytes, own_neighbour,/[own_neighbour, first_bytes,/'
slip order-22-23 soundness.rs 's/own_neighbour, neighbour_absent,/neighbour_absent, own_neighbour,/'
slip order-23-24 soundness.rs 's/neighbour_absent, not_listed_back,/not_listed_back, neighbour_absent,/'
slip order-24-25 soundness.rs 's/not_listed_back, known,/known, not_listed_back,/'
slip order-25-26 soundness.rs 's/known, pending_and_seen\]/pending_and_seen, known]/'
slip absent-judged-as-present soundness.rs 's/\[first_bytes, absent_not_blank\]/[first_bytes, own_neighbour, absent_not_blank]/; s/\[Rule; 2\]/[Rule; 3]/'
slip neighbour-by-neighbour soundness.rs '/^fn neighbour_absent/,/^}/{s/find(|q| !network.present(\*\*q))/find(|q| !network.present(**q) || !network.at(**q).neighbours.contains(\&p))/; s/Fault::NeighbourAbsent(\*q)/if network.present(*q) { Fault::NotListedBack(*q) } else { Fault::NeighbourAbsent(*q) }/}' '--only copy'

# the peer or topic at fault
slip highest-absent soundness.rs '/^fn neighbour_absent/,/^}/s/neighbours.iter().find/neighbours.iter().rev().find/'
slip highest-not-listing soundness.rs '/^fn not_listed_back/,/^}/s/neighbours.iter().find/neighbours.iter().rev().find/'
slip highest-topic soundness.rs 's/all_topics().find(wrong)/all_topics().filter(wrong).last()/' '--only forward'
slip known-only-missing soundness.rs 's/all_topics().find(wrong)/all_topics().filter(wrong).find(|t| record.known_for(*t).next().is_none()).or(all_topics().find(wrong))/'
slip detail-of-22 calls.rs 's/detail: fault.detail()/detail: if fault.number() == 22 { peer.0 } else { fault.detail() }/'
slip detail-of-26 soundness.rs 's/ | Fault::PendingAndSeen => 0/ => 0, Fault::PendingAndSeen => 1/'
slip detail-of-an-event calls.rs 's/Answer { number, detail: 0, place, accepted: place }/Answer { number, detail: bytes[1], place, accepted: place }/'
slip detail-of-a-drain calls.rs 's/Drained { number: 0, detail: 0, place: 0, forwards/Drained { number: 0, detail: rounds as u8, place: 0, forwards/'
without='fn without(answer: Checked) -> CChecked { CChecked { number: answer.number, detail: 0, place: answer.place } }'
slip run-without-detail standin.rs 's/CAnswer { number, detail,/CAnswer { number, detail: 0,/'
slip forward-without-detail standin.rs 's/CForwarded { number, detail,/CForwarded { number, detail: 0,/'
slip drain-without-detail standin.rs 's/CDrained { number, detail,/CDrained { number, detail: 0,/'
slip image-without-detail standin.rs "/^pub unsafe extern \"C\" fn relay_image/,/^}/s/^    checked(/    without(/; \$a $without"
slip check-without-detail standin.rs "/^pub unsafe extern \"C\" fn relay_check/,/^}/s/^    checked(/    without(/; \$a $without"
slip copy-without-detail standin.rs "/^pub unsafe extern \"C\" fn relay_copy/,/^}/s/^    checked(/    without(/; \$a $without"

# table and event bytes
slip topic-32 events.rs 's/row\[0\] >= TOPICS/row[0] > TOPICS/'
slip origin-32 events.rs 's/row\[1\] >= PEERS/row[1] > PEERS/'
slip row-byte-3 events.rs 's/ || row\[3\] != 0//'
slip code-255 events.rs 's/if code >= 7 {/if code >= 7 \&\& code < 255 {/; s/_ => panic!("no such kind")/_ => \&[]/'
slip unused-byte-15 events.rs 's/(1..EVENT_SIZE).any/(1..EVENT_SIZE - 1).any/'
slip unused-byte-3 events.rs 's/(1..EVENT_SIZE).any(|i| /(1..EVENT_SIZE).any(|i| i != 3 \&\& /'
slip message-masked events.rs 's/ || bytes\[2\] >= MESSAGES//; s/Message(bytes\[2\])/Message(bytes[2] % MESSAGES)/'
slip peer-masked events.rs 's/bytes\[1\] >= PEERS || //; s/Peer(bytes\[1\])/Peer(bytes[1] % PEERS)/'

# conditions and effects
slip new-if-not-seen events.rs 's/all(|record| !record.pending.contains(&message) && /all(|record| /'
slip new-if-not-pending events.rs 's/ && !record.seen.contains(&message))$/)/'
slip order-10-11 events.rs '/^fn produce/,/^}/s/if table.origin(message) != peer {/if !network.at(peer).pubs.contains(\&table.topic(message)) { return Err(11); }\n    if table.origin(message) != peer {/'
slip order-11-12 events.rs '/^fn produce/,/^}/s/^    if !network.at(peer).pubs/    if !is_new(network, message) { return Err(12); }\n    if !network.at(peer).pubs/'
slip forward-not-seen events.rs 's/network.at_mut(peer).seen.insert(message);//'
slip forward-not-to-origin events.rs 's/^    for subscriber in subscribers {/    for subscriber in subscribers.into_iter().filter(|q| *q != table.origin(message)) {/'
slip subscribe-alone events.rs 's/network.at_mut(neighbour).learn(\*topic, peer);//'
slip unsubscribe-alone events.rs '/^fn unsubscribe/,/^}/s/network.at_mut(neighbour).unlearn(\*topic, peer);//'
slip leave-with-pending events.rs 's/if !network.at(peer).pending.is_empty() {/if false {/'
slip order-15-16 events.rs '/^fn join/,/^}/s/if neighbours.contains(&peer) {/if neighbours.iter().any(|q| *q != peer \&\& !network.present(*q)) { return Err(16); }\n    if neighbours.contains(\&peer) {/'
slip order-9-15 events.rs '/^fn join/,/^}/s/if network.present(peer) {/if neighbours.contains(\&peer) { return Err(15); }\n    if network.present(peer) {/'
slip join-one-side events.rs 's/other.neighbours.insert(peer);//'
slip join-unknown events.rs 's/record.learn(\*topic, \*neighbour);//'

# calls, counts and orders
slip tally-kept calls.rs 's/^    \*tally = Tally::default();//'
slip tally-reset-early calls.rs 's/^    let (mut network, table) = match before_events/    *tally = Tally::default();\n    let (mut network, table) = match before_events/'
slip accepted-plus-one calls.rs 's/accepted: place }/accepted: place + 1 }/'
slip order-3-4 calls.rs '/^fn before_events/,/^}/{s/^    events_length(events)?;//; s/^    let table = table_rows(table)?;/    let table = table_rows(table)?;\n    events_length(events)?;/}'
slip order-4-20 calls.rs '/^fn before_forwards/,/^}/s/^    let table = table_rows(table)?;/    sound(state)?;\n    let table = table_rows(table)?;/'
slip order-20-7 calls.rs 's/^    let result = before_forwards/    if state.len() == 5120 \&\& table.len() == 256 \&\& peer >= PEERS { return Forwarded::refused(refuse(7, 0)); }\n    let result = before_forwards/'
slip round-unfinished calls.rs 's/^    (made, true)/    (made, made < budget)/'
slip quiet-by-budget calls.rs 's/(forwards, rounds, network.pending_pairs().is_empty())/(forwards, rounds, forwards < budget)/'
slip budget-16-bits calls.rs 's/^    let mut forwards = 0;/    let budget = budget % 65536; let mut forwards = 0;/'
slip order-20-18 calls.rs '/^pub fn image(/,/^}/s/^    checked(read/    if image.len() != STATE_SIZE { return Checked { number: 18, detail: 0, place: 0 }; }\n    checked(read/'
slip image-keeps-links calls.rs 's/^            pubs: record.pubs.clone(),/            pubs: record.pubs.clone(), neighbours: record.neighbours.clone(),/'
slip copy-clears calls.rs '/^pub fn copy/,/^}/s/^    checked(read/    to.fill(0);\n    checked(read/'

# E2, the receivers of a forward. The count is right where only the set is wrong, and the reverse. A set found before the message
# moves is no slip: the sender is never its own neighbour.
counted='s/let deliveries = receivers.len() as u32;/let deliveries = receivers.len() as u32'
known='network.at(Peer(peer)).known_for(super::state::Topic(table[4 * message as usize]))'
slip receivers-all-known calls.rs "$counted; let receivers = $known.copied().collect();/"
slip receivers-still-pending calls.rs "$counted; let receivers = $known.filter(|q| network.at(**q).pending.contains(\&Message(message))).copied().collect();/"
slip receivers-and-sender calls.rs "$counted; let receivers = receivers.into_iter().chain([Peer(peer)]).collect();/"
slip receivers-lowest-only calls.rs "$counted; let receivers = receivers.into_iter().take(1).collect();/"
slip receivers-31-bits standin.rs 's/receivers: word_of(&receivers)/receivers: word_of(\&receivers) \& 0x7fff_ffff/'
slip receivers-missing standin.rs 's/receivers: word_of(&receivers)/receivers: 0/'
slip count-of-the-known calls.rs "s/let deliveries = receivers.len() as u32/let deliveries = $known.count() as u32/"
slip tally-adds-the-word calls.rs 's/+= receivers.len() as u64/+= u64::from(super::state::word_of(receivers))/'
# Whom a refused forward would have reached; what is out of range is taken for what is left of it within.
would='fn would(state: &[u8], table: &[u8], peer: u8, message: u8) -> BTreeSet<Peer> { let network = Network::parse(state); let (peer, message) = (peer % 32, Message(message % 64)); let lacks = |q: &&Peer| !network.at(**q).pending.contains(&message) && !network.at(**q).seen.contains(&message); network.at(Peer(peer)).known_for(super::state::Topic(table[4 * message.0 as usize] % 32)).filter(lacks).copied().collect() }'
reaching() { # CONDITION: the edit by which a forward that is refused so names them
    printf '%s' "s/^        Err(refusal) => Forwarded::refused(refusal),/        Err(refusal) if $1 => Forwarded { receivers: would(state, table, peer, message), ..Forwarded::refused(refusal) },\n&/; \$a $would"
}
slip refused-by-4-reaches calls.rs "$(reaching 'refusal.number == 4')"
slip refused-by-7-reaches calls.rs "$(reaching 'refusal.number == 7')"
slip refused-by-13-reaches calls.rs "$(reaching 'refusal.number == 13')"
slip unsound-reaches calls.rs "$(reaching 'refusal.number >= 20')"
slip refused-is-counted calls.rs 's/Err(refusal) => Forwarded::refused(refusal),/Err(refusal) if refusal.number == 13 => Forwarded { deliveries: 1, ..Forwarded::refused(refusal) },\n        &/'

# E4, who is visited. The answer names all receivers, and one of them does not get the message: the last of several, desk 31, desk 0.
without() { # PEER, an option of a peer: the edit by which it is passed over
    printf '%s' "s/^    Ok(receivers)/    let passed: Option<Peer> = $1;\\n    if let Some(q) = passed { network.at_mut(q).pending.remove(\\&message); }\\n    Ok(receivers)/"
}
slip last-receiver-passed-over events.rs "$(without 'receivers.iter().skip(1).next_back().copied()')"
slip desk-31-passed-over events.rs "$(without 'receivers.get(\&Peer(31)).copied()')"
slip desk-0-passed-over events.rs "$(without 'receivers.get(\&Peer(0)).copied()')"

# 16 bits where more are needed
slip answers-modulo-65536 standin.rs 's/CAnswer { number, detail, place, accepted }/CAnswer { number, detail, place: place % 65536, accepted: accepted % 65536 }/' '--only long'
slip accepted-modulo-65536 standin.rs 's/CAnswer { number, detail, place, accepted }/CAnswer { number, detail, place, accepted: accepted % 65536 }/' '--only long'
slip produced-modulo-65536 standin.rs 's/= CTally { produced, /= CTally { produced: produced % 65536, /' '--only long'
slip deliveries-modulo-65536 standin.rs 's/= CTally { produced, forwards, deliveries }/= CTally { produced, forwards, deliveries: deliveries % 65536 }/' '--only long'
slip stops-at-65536 calls.rs 's/in events.chunks(EVENT_SIZE).enumerate() {/in events.chunks(EVENT_SIZE).enumerate().take(65536) {/' '--only long'

# bytes that are not its own, or not lent to be written; "touch" writes a byte and puts the old one back
touch='unsafe fn touch(at: *const u8) { let at = at as *mut u8; let old = at.read_volatile(); at.write_volatile(!old); at.write_volatile(old) }'
slip reads-beyond-events standin.rs '/^pub unsafe extern "C" fn relay_run/,/^}/s/^    let mut own = before;/    events.as_ptr().add(events_length).read_volatile(); let mut own = before;/'
slip reads-beyond-state standin.rs '/^pub unsafe extern "C" fn relay_check/,/^}/s/^    checked(/    state.add(state_length).read_volatile(); checked(/'
slip reads-before-table standin.rs '/^pub unsafe extern "C" fn relay_drain/,/^}/s/^    let Drained/    table.as_ptr().sub(1).read_volatile(); let Drained/'
slip reads-beyond-image standin.rs '/^pub unsafe extern "C" fn relay_image/,/^}/s/^    let state = /    image.add(image_length).read_volatile(); let state = /'
slip touches-table standin.rs "/^pub unsafe extern \"C\" fn relay_run/,/^}/s/^    let mut own = before;/    if table_length > 0 { touch(table.as_ptr()) } let mut own = before;/; \$a $touch"
slip touches-image-state standin.rs "/^pub unsafe extern \"C\" fn relay_image/,/^}/s/^    let state = /    if state_length > 9 { touch(state.add(9)) } let state = /; \$a $touch"
slip touches-refused-state standin.rs "/^pub unsafe extern \"C\" fn relay_forward/,/^}/s/^    let Forwarded/    if state_length > 0 { touch(state.as_ptr()) } let Forwarded/; \$a $touch"
slip touches-refused-tally standin.rs 's/^    if own != before {/    {/'
slip writes-behind-tally standin.rs 's/^    let mut own = before;/    let mut own = before; (tally as *mut u8).add(24).write_volatile(0);/'
slip writes-before-tally standin.rs 's/^    let mut own = before;/    let mut own = before; (tally as *mut u8).sub(1).write_volatile(0xa5);/'
slip writes-before-state standin.rs '/^pub unsafe extern "C" fn relay_drain/,/^}/s/^    let state = /    state.sub(1).write_volatile(0xa5); let state = /'

# demand 3 through the engine alone
slip back-to-seen-orders events.rs 's/if !record.pending.contains(&message) && !record.seen.contains(&message) {/if !record.pending.contains(\&message) {/' '--only orders'
slip drain-skips-31-orders calls.rs '/^pub fn round(/,/^}/s/^        forward_event(/        if peer.0 == 31 \&\& network.present(Peer(30)) { network.at_mut(peer).pending.remove(\&message); network.at_mut(peer).seen.insert(message); made += 1; continue; }\n        forward_event(/' '--only orders'
slip forward-not-counted-orders calls.rs 's/let deliveries = receivers.len() as u32/let deliveries = receivers.len().min(3) as u32/' '--only orders'
slip receivers-all-known-orders events.rs 's/^    Ok(receivers)/    Ok(network.at(peer).known_for(table.topic(message)).copied().collect())/' '--only orders'
slip receivers-sender-for-one-orders calls.rs "$counted; let receivers = if deliveries == 0 { receivers } else { receivers.into_iter().skip(1).chain([Peer(peer)]).collect() };/" '--only orders'

# the run program
slip limit-65535 program.rs 's/input.len() > INPUT_LIMIT/input.len() >= INPUT_LIMIT/'
slip limit-last program.rs 's/    if input.len() > INPUT_LIMIT {/    if input.len() > INPUT_LIMIT + 100_000 {/'
slip shows-only-done program.rs 's/answer.number == 0 || refuses_an_event(answer.number)/answer.number == 0/'
slip shows-unsound program.rs 's/refuses_an_event(answer.number)/answer.number > 5/'
slip shows-detail program.rs 's/"FLOOD {} {} {}\\n", answer.number,/"FLOOD {} {} {} {}\\n", answer.number, answer.detail,/'
slip shows-pubs program.rs 's/record.subs.len()/record.pubs.len()/'
slip reads-once standin_flood.rs 's/std::io::stdin().read_to_end(&mut input)?;/input.resize(70_000, 0); let count = std::io::stdin().read(\&mut input)?; input.truncate(count);/'
slip needs-some-input standin_flood.rs 's/^    std::io::stdout()/    if input.is_empty() { return Ok(()); }\n    std::io::stdout()/'
