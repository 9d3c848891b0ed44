#!/bin/sh
# Takes away from the front, one by one, what a test is to miss: front/mutants.sh [PROGRAM [WORD]], by hand. PROGRAM is
# crates/review/out/review unless it is named; with WORD only the rows that have it. Each row changes one line in a copy
# of the front, in which the test that is named has to fail then, having passed before. A mutant that lives is told, and
# the status is 1.
set -eu
here=$(realpath "$(dirname "$0")")
REVIEW_PROGRAM=$(realpath "${1:-$here/../crates/review/out/review}")
FRONT_PATIENCE=${FRONT_PATIENCE:-20} FRONT_EDITS=${FRONT_EDITS:-250}
export REVIEW_PROGRAM FRONT_PATIENCE FRONT_EDITS
aside=$(mktemp -d)
trap 'rm -rf "$aside"' EXIT
for folder in bench clients crates docs examples tools; do ln -s "$here/../$folder" "$aside/$folder"; done
mkdir "$aside/front"
(cd "$here" && tar cf - --exclude=./out .) | tar xf - -C "$aside/front"
cd "$aside/front"

# FILE PACKAGE TEST, and what sed does. In their order: what is brought to the disk (edits, a new journal, a snapshot,
# names, marks, keys), what a client may take of the front (time, room, marks, how much is kept), what it is told and
# a page of another site is not, bodies with keys and who is written down, the commands that the front knows, damage
# of a folder, the time of a start, what listeners take, askers, edits that are made behind a serial or whole, requests
# that are translated, AuthZEN, Kubernetes, kept decisions, who may what, a log of several fronts, what edits changed,
# earlier states, the chain, what proxies ask, sources, campaigns, SCIM, and the desk.
grep -e "${2:-}" >"$aside/rows" <<'ROWS'
folder/writing.go . TestOrder s/^\t\terr = f\.sync(f\.current)$/\t\terr = nil/
folder/writing.go . TestOrder s/^\t\terr = file\.Sync()$/\t\terr = nil/
folder/snapshot.go . TestOrder s/^\treturn file\.Sync()$/\treturn nil/
folder/folder.go . TestOrder s/err := folder\.Sync();/err := error(nil);/
marks/marks.go . TestOrder s/err = b\.file\.Sync()/err = nil/
keys/file.go . TestOrder s/err := t\.file\.Sync();/err := error(nil);/
serve.go . TestEndlessBodies s/ReadTimeout: o\.bodyTime, //
web/body.go . TestSlowBody s/_ = p\.conn\.SetReadDeadline(.*$//
web/server.go . TestUnread s/_ = a\.conn\.SetWriteDeadline(.*$//
web/lines.go . TestWindow s/^\tin\.room(ctx, next\.bytes)$//
sessions/sessions.go sessions TestDue s/if due == 0 {/if due >= 0 {/
sessions/order.go sessions TestMarks s/^\tif s\.marked {$/\tif false {/
sessions/order.go sessions TestOldest s/^\tif o\.none++; o\.none <= len(o\.counts)\/2 {$/\tif true {/
sessions/sessions.go sessions TestOldest s/^\tif from < t\.order\.from {$/\tif false {/
sessions/sessions.go sessions TestMany s/^\tif from < t\.order\.from {$/\tif true {/
sessions/leases.go sessions TestIdle s/l\.idles\.PushBack(held)/l.idles.PushFront(held)/
sessions/leases.go sessions TestLeases s/^\tif held\.users++; held\.place != nil {$/\tif held.users++; false {/
keeper/settle.go . TestMarksStay s/^\tk\.mark(batch)$//
marks/marks.go marks TestTorn s/ || knownBehind(rest, place) {/ {/
ladder/ladder.go ladder TestNeeded s/ && floor > need && / \&\& /
ladder/ladder.go ladder TestNeeded s/ && l\.spent\.Changes-rungs\[i\]\.Changes <= l\.bounds\.Changes;/;/
keeper/marks.go . TestStale s/k\.ladder\.Due(k\.need())/k.ladder.Due(0)/
keeper/serve.go . TestLoad s/ other\.Load() > 0; {/ false; {/
keeper/serve.go . TestLoadHung s/ other\.Load() > 0; {/ false; {/
keeper/watch.go keeper TestHangs s/ || how == light \&\& w\.lasting\.Load() > 0$//
program/work.go program TestWork s/work\.Runs || anyRuns.*$/false/
keeper/watch.go keeper TestHangs s/case worked <= 0 \&\& !work\.Runs:/case worked <= 0:/
keeper/watch.go keeper TestHangs s/last\.spent += worked \/ w\.atOnce()/last.spent += worked/
keeper/watch.go keeper TestHangs s/^\t\tpassed = most .*$//
keeper/watch.go keeper TestMoves s/^\t\tlast\.still, last\.spent = 0, 0$//
keeper/keeper.go . TestHungBehind s/^\tif c\.kind == line\.Edit {$/\tif true {/
keeper/settle.go . TestUnreadTables s/if call\.IsLong() {/if false {/
folder/snapshot.go . TestTrimmed s/range serials\[:first\]/range serials[:0]/
web/server.go . TestRebinding s/if !s\.Hosts\.serves(r) {/if false {/
web/hosts.go . TestPages s/r\.Header\.Get("Sec-Fetch-Site") == "cross-site"/false/
web/notices.go . TestComesBack s/s\.listener(r\.Header\.Get("Last-Event-ID"))/s.listener("")/
web/notices.go . TestBeat s/_, err = w\.Write(\[\]byte(":\\n\\n"))/continue/
web/opening.go web TestBegin s/accepted = accepted || ok/accepted = accepted \&\& ok/
web/opening.go . TestNoneAccepted s/g\.closed = g\.closed || g\.taken == 1/g.closed = false/
web/tally.go . TestCount s/^\tif lines > seen {$/\tif false {/
web/lines.go . TestCount s/^\tin\.tally\.unread = .*$/\tin.tally.unread = false/
web/tally.go . TestCount s/^\t\tw\.Header()\.Set("Trailer", countField)$//
web/tally.go . TestStrict s/case t\.accepted == 0:/case true:/
web/strict.go . TestStrict s/case strict \&\& asksLong(body):/case false:/
web/tally.go . TestStrict s/^\tif !t\.how\.strict || t\.wrong == nil {$/\tif true {/
web/why.go . TestWhy s/; list\.Taken >= list\.Most {/; list.Taken < 0 {/
web/why.go . TestWhy s/^\tif !r\.raised\[word\] {$/\tif true {/
web/keyed.go . TestRefusedLog s/^\ts\.refuses(by, l, reply\.Body)$//
web/how.go . TestRefusedLog s/^\t\ts\.refuses(by, edits.*$//
web/sessions.go . TestRefusedLog s/^\ts\.refuses(by, \[\]byte(l), reply\.Body)$//
serve.go . TestRefusedLog s/^\tdefer site\.TellRefused(true)$//
web/refused.go web TestRefusedEvery s/^\t\t\ts\.TellRefused(false)$//
web/refused.go web TestRefusedEvery s/^\tif row == nil \&\& len(c\.rows) >= mostRefused {$/\tif false {/
keeper/settle.go . TestKeyed s/use != nil && !line/use == nil \&\& !line/
keys/file.go keys TestBehind s/if r\.Serial > last {/if false {/
keeper/settle.go . TestKeyed s/case c\.Remember == nil || line.*$/case true:/
keys/recover.go keys TestBehind s/if r\.Serial > last {/if false {/
web/names.go . TestCertificates s/if name == "" {/if false {/
web/names.go . TestProxyTokens s/^\treturn s\.Signed == nil$/\treturn s.Signed == nil || name == ""/
web/questions.go web TestQuestions s/"faults", nil}/"fault", nil}/
web/questions.go . TestPaths s/"faults", nil}/"fault", nil}/
line/line.go line TestKinds s/"moment\.set": Edit,//
folder/tail.go folder TestFlips s/if synced > j\.size {/if false {/
folder/tail.go folder TestFlips s/^\t\t\tsynced = entries\[0\]\.synced$/\t\t\t_ = entries/
folder/survey.go folder TestFiles s/if part := j\.part(); \*part != c\.Part {/if false {/
folder/survey.go folder TestFiles s/if !there\[number\] {/if false {/
keeper/run.go . TestOldDamaged s/if damage = k\.Folder\.CheckOld(background); damage != nil {/if damage != nil {/
keeper/settle.go . TestReplayTime s/return many || .*$/return many/
web/notices.go . TestListenersShare s/data = event\.Data$/data = append([]byte(nil), event.Data...)/
keeper/asker.go . TestAskerOtherwise s/; !ok || said\.Serial != a\.made || said\.Changes != 0 {/; ok \&\& said.Serial == 0 {/
keeper/asker.go keeper TestDecidesKnow s/^\ta\.follow()$//
keeper/edits.go . TestMatches s/; serial != \*known {/; false {/
keeper/edits.go . TestTwoEditors s/if k\.edits\.idle(limit) != nil {/if false \&\& k.edits.idle(limit) != nil {/
folder/writing.go folder TestTogether s/if together > 1 {/if together > len(entries) {/
web/how.go . TestWhole s/ || values\[0\] != "1" {/ {/
line/scan.go . TestReadAsTheProgram s/^\t\t\tr\.do, _, named = text(l\[:to\], from)$/\t\t\tif r.do == "" {\n\t\t\t\tr.do, _, named = text(l[:to], from)\n\t\t\t}/
web/visit.go web TestVisit s/^\tif v\.known == known \&\& .*{$/\tif v.who != nil {/
web/visit.go . TestGoneByTime s/(v\.until\.IsZero() || time\.Now()\.Before(v\.until))/true/
web/visit.go web TestVisit s/^\tif !wrong \&\& s\.allowed != known {$/\tif false {/
web/lines.go . TestGone s/, gone: in\.visit\.gone(ctx),/,/
web/notices.go . TestGone s/stay := s\.stays(r, "notices")/var stay *stay/
web/keyed.go . TestGoneKeyed s/^\terr := s\.still(ctx, l)$/\tvar err error/
web/certified.go . TestGoneCertificates s/connection\.known != known || /false || /
web/certified.go . TestGoneCertificates s/ || !time\.Now()\.Before(until) {/ {/
web/access.go . TestRoles s/^\tif !who\.May(command) {$/\tif false {/
web/access.go . TestGivenAttributes s/^\t} else if err != nil {$/\t} else if false {/
rights/told.go rights TestSpellings s/{"category", categoryName}/{"category", asWritten}/
rights/told.go rights TestTold s/{"version", plainVersion}/{"version", asWritten}/
rights/told.go rights TestTold s/{"moment", withoutZone}/{"moment", asWritten}/
rights/told.go rights TestTold s/^\t\tif text, is := textOf(members\[one\.key\]); is \&\&/\t\tif text, is := textOf(members[one.key]); is \&\& texts["id"] == "" \&\&/
rights/request.go rights TestManyClaims s/^\t\tif len(id) > mostValues {$/\t\tif len(id) > mostValues || len(values) > mostValues {/
rights/rights.go rights TestDies s/j\.start(j\.state)/j.start(func() []byte { s, _ := os.ReadFile(j.path); return s }())/
access/issuer.go access TestIssuer s/ \&\& k\.algorithm == algorithm//
access/issuer.go access TestIssuer s/!ok || !now\.Before(ends)/!ok \&\& !now.Before(ends)/
access/issuer.go access TestTypes s/^\tif !i\.isOf(head) {$/\tif false {/
access/issuer.go access TestTypes s/^\twritten = strings\.ToLower(written)$//
access/access.go access TestLocalNames s/^\tif k\.names\[looks(claims\["sub"\]\[0\])\] {$/\tif false {/
options.go . TestHelp s/the `name` of those for whom its tokens are, as their claim aud has it/their claim aud `has` it/
access/gives.go access TestGives s/; there {$/; there \&\& false {/
profile/values.go . TestTranslated s/return moment\.UTC()\.Format(momentForm) + "Z", ""/return local + "Z", ""/
profile/request.go . TestTranslated s/^\tif references == nil {$/\tif true {/
profile/attribute.go . TestPlaces s/^\t\tif found\.Included {$/\t\tif false {/
profile/elements.go . TestXMLShapes s/return nil, now\.fault("there is no document type here")/continue/
authzen/seconds.go . TestAuthzenSeconds s/if !clocks\[profile\.TypeOf(datatype)\] {/if !clocks[profile.TypeOf(datatype)] || true {/
web/problem.go . TestAuthzenRules s/; ok \&\& a\.authzen {/; ok \&\& a.authzen \&\& false {/
places/places.go . TestAuthzenRules s/if f\.Place == "" {/if false {/
web/asks.go . TestOneState s/= s\.Keeper\.DecideAll(ctx, lines)$/= []keeper.Reply{}; for _, l := range lines { replies = append(replies, s.Keeper.Decide(ctx, l)) }/
web/listing.go . TestAuthzenShapes s/^\t\tl\.change(edits)$//
authzen/search.go . TestAuthzenShapes s/if string(read\[:sha256\.Size\]) != string(s\.identity\[:\]) {/if false {/
kubernetes/answer.go kubernetes TestAnswer s/ \&\& len(obligations) > 0:/ \&\& false:/
kubernetes/review.go kubernetes TestUnclear s/if strings\.ContainsAny(told\[key\], marks) {/if false {/
kubernetes/review.go kubernetes TestUnclear s/if !strings\.HasPrefix(path, "\/") {/if false {/
web/kubernetes.go . TestKubernetes s/if errors\.As(err, &unclear) {/if errors.As(err, \&unclear) \&\& false {/
web/kubernetes.go . TestKubernetes s/told\.Refused == noRequest {/told.Refused == noRequest \&\& false {/
web/kubernetes.go . TestKubernetesRoles s/^\ts\.keepAll(r, all)$//
decisions/decisions.go decisions TestFiles s/|| isOther) {/|| false \&\& isOther) {/
web/server.go . TestTraced s/trace != "" && a\.status/false \&\& a.status/
keeper/compare.go keeper TestRoom s/takes > free {$/takes > 2*free {/
keeper/compared.go keeper TestWrongTells s/^\t\t\ts\.tell(doubted).*$//
keeper/compared.go keeper TestStrayLater s/return fmt\.Errorf("the edits on disk can't be compared.*$/_ = err/
keeper/compared.go . TestLogAstray s/if sum != own\.Sum {/if sum != own.Sum \&\& false {/
jetstream/append.go . TestLogOrder s/message\.Header\.Set(nats\.ExpectedLastSeqHdr, /message.Header.Set("Nothing", /
keeper/streamed.go . TestLogStrange s/if !isEditLine(l) {/if false {/
keeper/appended.go . TestLogKeyed s/case err == nil && l\.passed(id, sequence):/case err == nil \&\& false:/
keeper/streamed_whole.go . TestLogWhole s/if err == nil && refused != nil {/if false {/
folder/copy.go . TestLogWhole s/if f\.head\.Stream == "" {/if true {/
keeper/streamed_try.go . TestLogTried s/if k\.TryTime == 0 || call\.tried != nil {/if true {/
keeper/streamed_try.go . TestLogTriedBoth s/ \&\& s\.own\[last\] != s\.broken//
folder/entry.go folder TestLimits s/head := Head{Limits: limits\.Standard}/head := Head{}/
folder/copy.go . TestLarger s/Limits: p\.head\.Limits, Stream/Stream/
folder/copy.go folder TestLimits s/^\tf\.head\.Limits = p\.baseHead\.Limits$//
folder/copy.go folder TestLimits s/p\.Ends > before {/p.Ends < before {/
keeper/run.go . TestLarger s/!k\.Command\.Limits\.Hold(held) {/!k.Command.Limits.Hold(held) \&\& false {/
keeper/compare.go . TestDryFirst s/^const endedFirst = "1000"$/const endedFirst = "0"/
keeper/compare.go . TestLarger s/, k\.Command\.Limits\.Words()\.\.\.)/)/
program/program.go . TestLarger s/append(words, c\.Limits\.Words()\.\.\.)\.\.\.)/words...)/
jetstream/open.go . TestLogLarger s/case limitsOf(config) != l\.Limits\.String():/case false:/
keys/file.go keys TestLines s/told\.Line\.number != len(b\.replies)+lines\[b\]:/false:/
keys/lines.go . TestLogKeyedOther s/if b == nil || b\.sum != l\.sum \&\& !b\.isKept() {/if b == nil {/
keeper/streamed.go . TestLogKeyedRefused s/^\t\tcall\.isOf(edit\.Key)$//
keeper/streamed.go . TestLogKeyedRefused s/if err := l\.adoptKeys(ctx, from); err != nil {/if err := error(nil); err != nil {/
keeper/settle.go . TestLogKeyedRefused s/^\tcase c\.part != nil:$/\tcase false:/
keeper/serve.go . TestLogFullDisk s/if call\.sequence != 0 \&\& (len(s\.parked) > 0 || !s\.keeper\.mayEdit()) {/if false {/
keeper/health.go . TestLogUnled s/^\t\tif !state\.Led {$/\t\tif false {/
jetstream/append.go . TestLogUnled s/if !l\.watched\.begin() {/if !l.watched.begin() \&\& false {/
jetstream/read.go . TestLogUnbrought s/^\tif r\.replicas\.Load() <= 1 {$/\tif true {/
jetstream/watch.go . TestLogLacks s/; err == nil \&\& why != "" {/; false \&\& why != "" {/
jetstream/watch.go . TestLogFullServer s/if l\.answers(server) {/if false {/
jetstream/read.go jetstream TestLacking s/ || l\.leader != now\.leader:/:/
jetstream/watch.go jetstream TestAgrees s/ \&\& !replica\.Offline {/ {/
jetstream/watch.go jetstream TestChange s/case w\.isStalled() \&\& time/case time/
undo.go . TestUndo s/if dropped\.Moves(u\.names) {/if false {/
copies.go . TestVerifyNothing s/if found\.Files == 0 {/if false {/
copies.go . TestRestore s/ \&\& until\.Serial > copied\.Ends {/ \&\& false {/
options.go . TestLimitWords s/case o\.limits\.Wrong() != "":/case false:/
changed/book.go . TestOrder s/err := b\.open\.file\.Sync()/err := error(nil)/
changed/book.go changed TestKept s/ && is(last) && (p\.closed/ \&\& (p.closed/
changed/query.go changed TestDamaged s/missing = append(missing, Range{After: reached, Last: until})/_ = missing/
changed/pack.go changed TestKept s/same |= 1 << i/same |= 1/
keeper/recording.go . TestPast s/&& !p\.book\.Has(entry\.Serial)/\&\& entry.Serial > 50/
keeper/recorder.go . TestOtherJournal s/entry\.Time\.Equal(e\.Time) && entry\.Changes == e\.Count/true/
keeper/past.go . TestPast s/if entry\.Serial > serial {/if entry.Serial > serial+1 {/
keeper/settle.go . TestDaily s/^\tmany = many || k\.KeepDaily.*$//
folder/snapshot.go . TestDaily s/if stay\[serial\] {/if stay[serial] \&\& false {/
folder/chain.go . TestForged s/ && entry\.chain != j\.chain\.String() || / \&\& false || /
folder/survey.go . TestForged s/j\.head\.Format >= chainedFrom && \*c\.chain != j\.chain {/false {/
folder/walk.go . TestLogPast s/if j\.head\.Stream == "" {/if true {/
folder/copy.go folder TestChainOfCopy s/s\.chainBehind(p\.Begins)/Chain{}/
folder/survey.go folder TestOlderJournals s/for _, older := range head\.Older {/for _, older := range head.Older[:0] {/
heads.go . TestForged s/if err := h\.Signed(g\.key); err != nil {/if err := h.Signed(g.key); err != nil \&\& false {/
heads.go . TestForged s/^\tcase h\.Serial > chains\.Ends:$/\tcase false:/
heads.go . TestForged s/there && chain == h\.Chain:/there \&\& (chain == h.Chain || true):/
jetstream/heads.go . TestHeadsStream s/DenyDelete: true, DenyPurge: true, //
jetstream/heads.go . TestHeadsStream s/nats\.MsgIdHdr, hex/"Nothing", hex/
jetstream/heads.go . TestHeadsOfEdits s/info\.Config\.Description != ofHeads || //
heads/book.go . TestServingPage s/b\.line != nil && !b\.anew {/b.line != nil {/
heads/target.go . TestHeadsWords s/t\.shown = secret\.ReplaceAllString(to, .*$/_ = secret/
serve.go . TestForged s/signed\.Finish(sendTime)$//
web/net.go . TestPast s/other, told := s\.otherwise(ctx, asked, n, back)/other, told := back, (*problem)(nil)/
keeper/snapshot.go . TestKeptLonger s/k\.Folder\.First() != first {/k.Folder.First() != first \&\& false {/
web/net.go . TestForgotten s/len(missing) > 0 {/false {/
web/net.go . TestUnlearned s/n\.unknown = append(n\.unknown, changed\.Range.*$/_ = e/
web/past.go . TestThen s/^\tserial, then := ctx\.Value(thenKey{})\.(uint64)$/&; then = false/
web/edits.go . TestLogPast s/nth == p\.nth/nth == 1/
web/past.go . TestThen s/at\.Add(time\.Nanosecond)/at.Add(-time.Nanosecond)/
web/past.go . TestPastRoles s/, \[\]byte(`{"do":"changes","since":0}`)) {/) {/
web/access.go . TestPastRoles s/"\/edits": "changes"/"\/edits": "counts"/
web/lines.go . TestMarksOnDisk s/^\t\t\tif p\.call != nil && p\.server != nil {$/\t\t\tif false {/
marks/marks.go . TestSessionEnded s/b\.ended\.add(r\.Gone, \*r\.At)$//
check/path.go check TestRefused s/^\tif strings\.HasSuffix(part, "\.") {$/\tif false {/
check/path.go check TestRefused s/c < utf8\.RuneSelf \&\& strings\.IndexByte(either+escaped, c) < 0 {$/false \&\& c == 0 {/
check/path.go check TestRefused s/"_method")/"_methods")/
check/path.go . TestProxies s/^\tif strings\.HasSuffix(part, "\.") {$/\tif false {/
check/pattern.go check TestRefused s/p\.slash != s\.slash || //
check/pattern.go check TestRefused s/ \&\& strings\.Contains(found\[name\], divides) {/ \&\& false {/
check/asked.go check TestRefused s/len(values) > 1)/len(values) > 9)/
check/asked.go check TestRefused s/(alike != name || len(values) > 1)/len(values) > 1/
check/asked.go check TestRefused s/alike == one \&\& !counts\[alike\] {/alike == one \&\& false {/
check/asked.go check TestCase s/s\.parts\[i\] = strings\.ToLower(part)/s.parts[i] = part/
check/asked.go check TestCase s/^\t\t\tif doubtful(part) {$/\t\t\tif false {/
check/outcome.go check TestOutcome s/^\tcase one\.Decision == "Permit" \&\& unknown == "":$/\tcase one.Decision == "Permit":/
check/outcome.go check TestOutcome s/twice \&\& !reflect/false \&\& twice \&\& !reflect/
check/mapping.go check TestFaults s/^\t\t\tif known\[name\] {$/\t\t\tif false {/
check/subject.go . TestCheckCertificates s/ExtKeyUsageClientAuth/ExtKeyUsageAny/
web/check.go . TestCheck s/^\tw\.Header()\.Set(reasonHeader.*$//
source/differ/differ.go . TestSourceSeveral s/ \&\& drops >= 0 \&\& len(marks) == 0$/ \&\& drops >= 0/
source/differ/differ.go . TestSourceSeveral s/^\t\t\tall\[entity\] = true$/\t\t\t_ = entity/
source/differ/differ.go . TestSourceSeveral s/^\t\t\tdropped\.Edits = append(dropped\.Edits, change\.Edits\.\.\.)$/\t\t\tdropped.Edits = change.Edits/
source/differ/bodies.go . TestSourceSeveral s/\[\]What{Set, Added}/[]What{Added, Set}/
source/served/send.go . TestSourceBetween s/^\t\t"If-Match": .*$//
source/served/state.go . TestSourceWho s/told\.Status == http\.StatusForbidden {/told.Status == http.StatusForbidden \&\& false {/
source/records/output.go . TestSourceWrong s/len(content) > 0 \&\& content\[len(content)-1\] != /false \&\& content[0] != /
source/records/output.go . TestSourceCommand s/^\tif !strings\.HasSuffix(whole, .*{$/\tif false {/
source/records/ldap.go . TestSourceReferral s/if len(found\.Referrals) > 0 {/if false {/
source/records/ldap.go source/records TestKept s/now\.Sub(at) > settled {/now.Sub(at) > -settled {/
source/records/postgres.go . TestSourceDatabase s/ReadOnly: true/ReadOnly: false/
source/form/form.go . TestSourceForms s/^\t\t\t\tif other := owners\[key\]; other != nil {$/\t\t\t\tif other := owners[key]; false {/
source/round.go . TestSourceLimits s/uint64(after) > most {/false {/
source/round.go . TestSourceAtMost s/len(plan\.Given\.Entities\[list\]) == 0 \&\& !most\.given {/false {/
source/round.go . TestSourceUntold s/^\tcase errors\.Is(err, errUntold):$/\tcase false:/
source/round.go . TestSourceAtMost s/r\.options\.atMost\.exceeds(lost, .*:$/false:/
web/modules.go . TestModuleNames s/if first < 0 || one\.Module < first {/if first < 0 || one.Module > first {/
campaigns/table.go campaigns TestJudged s/if Digest(cells, now) == r\.Digest {/if true {/
campaigns/table.go campaigns TestJudged s/if Digest(cells, now) == r\.Digest {/if Digest(cells, now) == r.Digest || true {/
campaigns/table.go campaigns TestJudged s/; !c\.covers(decision) {/; !c.covers(decision) \&\& false {/
campaigns/definition.go campaigns TestJudged s/^\treturn d\.Ends != "" .*$/\treturn false/
campaigns/stand.go campaigns TestOldest s/^\tcase bounded && .*:$/\tcase false:/
campaigns/items.go campaigns TestScope s/if m\.Self || who\[0\] != .* {$/if true {/
campaigns/file.go campaigns TestScope s/ || sha256\.Sum256(content.* {$/ {/
campaigns/table.go . TestCampaignOthers s/; who != r\.By && (r\.Person == "" || who != r\.Person) {/; false \&\& who == "" {/
campaigns/table.go . TestCampaignOthers s/ && (person == r\.By || person == r\.Person) {/ \&\& person == r.By {/
web/campaigns.go . TestCampaignOthers s/; nobody != nil || s\.Signed == nil && name != .* {$/; nobody != nil \&\& name == "" {/
web/campaigns.go . TestCampaignOthers s/if one != who\.Name && one != who\.Person {/if one != who.Name \&\& one == "" {/
web/listing.go . TestCalled s/^\t\ts\.calling\.edited(s\.Called, edits)$//
web/tasks.go . TestCampaignOthers s/ || !s\.ownItems(w, r, name, \&asked) || / || /
campaigns/verify.go . TestEvidence s/^\tif Digest(cells, answers) != r\.Digest {$/\tif false {/
campaigns/verify.go . TestEvidence s/(kept || due) == ended {$/(kept || due) == ended \&\& false {/
evidence.go . TestEvidence s/folder\.Chain(chain) != head\.Chain {$/folder.Chain(chain) != head.Chain \&\& false {/
web/campaigns.go . TestCampaignsPage s/if err := s\.Keeper\.Campaigns\.May(record); err != nil {/if err := error(nil); err != nil {/
campaigns/stand.go . TestCampaignsModel s/(c\.On == OnAnswer || before != after)/(before != after)/
folder/writing.go . TestCampaignKept s/if f\.format < campaignFrom && haveCampaign(entries) {/if false {/
web/ids.go . TestByRule s/if told != nil || stored\[asked\.Policy\] {/if true {/
web/ids.go web TestElementIDs s/range e\.PolicySet\.Children {/range e.PolicySet.Children[:0] {/
folder/writing.go . TestCampaignKept s/format > chainedFrom \&\& f\.format < format || campaigns/campaigns \&\& f.format < 0 || campaigns \&\& f.format > 3/
folder/writing.go . TestCampaignKept s/format > chainedFrom \&\& f\.format < format || campaigns \&\& !f\.reviews {/false {/
folder/writing.go . TestScimRecords s/format > chainedFrom \&\& f\.format < format || campaigns \&\& !f\.reviews {/false {/
folder/snapshot.go . TestScimKept s/len(snapshot\.Records), chainedFrom$/0, chainedFrom/
keeper/snapshot.go . TestScimKept s/^\tif snapshot\.Records, err = k\.scimAt(reply\.Serial); err != nil {$/\tif err != nil {/
keeper/scim.go . TestScimRestored s/^\t\tcase entry\.Serial > serial:$/\t\tcase false:/
keeper/scim.go . TestScimHold s/errors\.As(err, \&refused) \&\& refused\.Excess {/false {/
keeper/provisioning.go . TestScimBehind s/\&\& count < triedAgain {/\&\& count < 0 {/
keeper/provisioning.go . TestScimModel s/^\t\t\tp\.keeper\.Scim\.TouchAll()$//
keeper/losing.go . TestScimHoldPermits s/|| holding\.Free != nil {/|| holding.Free == nil {/
keeper/streamed.go . TestLogScim s/if scim\.IsRecord(edit\.Line) {/if scim.IsRecord(edit.Line) \&\& edit.Sequence == 0 {/
scim/table.go . TestScimHold s/r\.Time\.Before(t\.free) {/false {/
scim/kept.go . TestScimHold s/Held: t\.held, Gone: t\.gone}/Gone: t.gone}/
scim/table.go . TestScimTogether s/^\tcase there\.Serial != r\.Of:$/\tcase false:/
scim/table.go . TestScimWrong s/id != "" \&\& id != r\.ID {/id == r.Key {/
scim/members.go . TestScim /t\.join(id, r\.ID)/{n;s/t\.touch(r, id)//}
scim/members.go . TestScim /, there := set\.at\[id\]; there {/{n;s/t\.touch(r, id)//}
scim/filter.go scim TestFilters s/if all = append(all, one); !p\.takes("and") {/if all = append(all, one); !p.takes("or") {/
scim/match.go scim TestFilters s/return is != (c\.op == "ne")/return is/
scim/list.go scim TestPages s/order < 0 || order == 0 \&\& keys\[i\]\.at < keys\[j\]\.at/order < 0/
scim/clean.go . TestScimWrong s/if isPassword(name) {/if false {/
provision/follower.go . TestScim s/^\t\tif before != after {$/\t\tif false {/
web/scim_write.go . TestScimExamples s/ \&\& !hasVersion(names, from) {/ \&\& false {/
web/scim_write.go . TestScimRoles s/^\t\tif !ok || !s\.mayScim(w, r, "scim\.write", kind\.Name, keys\["id"\]) {$/\t\tif !ok {/
web/access.go . TestWhoami s/ || isDesk(r) {$/ {/
web/server.go . TestDeskFromElsewhere s/ \&\& !isDesk(r) {/ {/
web/desk.go . TestDesk s/^\thead\.Set("Content-Security-Policy".*$//
web/desk.go . TestDesk s/ \&\& !isNever(how) {/ \&\& (!isNever(how) || true) {/
web/whoami.go . TestWhoami s/if who\.May(command) {/if true {/
web/digest.go . TestDigest s/^\t\trest = reply\.Rest\.Reader()$/\t\trest = strings.NewReader("")/
web/documents.go . TestDocumentCheck s/Atoi(string(found\[1\]))/Atoi(string(found[2]))/
ROWS
tests=$(awk '{ print "^" $3 "$" }' "$aside/rows" | sort -u | paste -sd '|')
./build.sh go test -count=1 -run "$tests" ./... >"$aside/said" 2>&1 || { cat "$aside/said"; exit 1; }

# lives says why the mutant of a row isn't found, or nothing.
lives() {
    [ "$(diff "$aside/kept" "$file" | grep -c '^<')" = 1 ] || { echo 'it changes another number of lines'; return; }
    ./build.sh go vet "./$package" >"$aside/said" 2>&1 || { echo "it can't be built: $(cat "$aside/said")"; return; }
    ! ./build.sh go test -count=1 -run "^$test\$" "./$package" >"$aside/said" 2>&1 || { echo "$test passes"; return; }
    grep -q "^--- FAIL: $test" "$aside/said" || echo "$test wasn't run to its end: $(cat "$aside/said")"
}

status=0
while read -r file package test change; do
    cp "$file" "$aside/kept"
    sed -i "$change" "$file"
    why=$(lives </dev/null)
    cp "$aside/kept" "$file"
    if [ -n "$why" ]; then
        status=1
        echo "LIVES: $file: $change: $why"
    else
        echo "$file: $test fails"
    fi
done <"$aside/rows"
exit $status
