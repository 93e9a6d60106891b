#!/usr/bin/env bash
# A session with the program: a desk is made, fabrics, hosts, an array and volumes are recorded, plans
# are staged, approved, tried, activated and taken back, requests are refused, and connections are
# served. Each step says exactly what has to come out. The session stops at the first difference and
# shows it; its last line says how many steps passed.
#
#     bash examples/session.sh                              # over ./sandesk, which builds the program
#     SANDESK=/path/of/the/program bash examples/session.sh
#
# Exit status: 0 all steps passed; 1 a step differs; 2 there is no program.
# It needs bash and coreutils, and works in a temporary folder of its own. With curl and sqlite3 it has
# a few steps more.
set -u
export LC_ALL=C

here=$(cd "$(dirname "${BASH_SOURCE[0]}")" && pwd)
SANDESK=${SANDESK:-$here/../sandesk}
policy=$here/session.toml
work=$(mktemp -d)
db=$work/desk.db
server=
passed=0
part=
left_out=
moment=0

finish() {
    if [ -n "$server" ]; then kill "$server" 2> /dev/null; fi
    rm -rf "$work"
}
trap finish EXIT

# ---- names and texts that come again

i1=10:00:00:00:00:00:00:01
i2=10:00:00:00:00:00:00:02
i3=10:00:00:00:00:00:00:03
i4=10:00:00:00:00:00:00:11
t1=50:00:00:00:00:00:00:01
t2=50:00:00:00:00:00:00:02
t3=50:00:00:00:00:00:00:11

# path FABRIC INITIATOR TARGET VOLUME: a path at unit 0, as answers show it.
path() {
    printf '{"fabric":"%s","initiator":"%s","lun":0,"target":"%s","volume":"%s"}' "$@"
}

first=$(path A $i1 $t1 v1)          # of the host db1, over fabric A
second=$(path B $i4 $t3 v1)         # of the host db1, over fabric B
other=$(path A $i1 $t1 v2)          # of the host db1 to the other volume
green=$(path A $i2 $t1 v2),$(path A $i3 $t1 v2)   # of the host db2

# denied NEED RULE RULE_NAME: the body of a denial.
denied() {
    printf '{"code":8,"error":"denied","need":"%s","rule":%s,"rule_name":"%s"}' "$@"
}

not_found='{"code":9,"error":"not-found"}'

# whole FILE VARIABLE: puts all that a file has into a variable, the line ends at its end too.
whole() {
    local text
    text=$(cat "$1" && printf .)
    printf -v "$2" '%s' "${text%.}"
}

# reason STATUS: the phrase of an HTTP status.
reason() {
    case $1 in
        200) echo OK ;;
        400) echo Bad Request ;;
        401) echo Unauthorized ;;
        403) echo Forbidden ;;
        404) echo Not Found ;;
        405) echo Method Not Allowed ;;
        409) echo Conflict ;;
        411) echo Length Required ;;
        413) echo Payload Too Large ;;
        503) echo Service Unavailable ;;
    esac
}

# message STATUS BODY [HEADER-LINE]: puts a whole answer into `answer`.
message() {
    local line=${3:+$3$'\r\n'}
    printf -v answer 'HTTP/1.1 %s %s\r\nContent-Type: application/json\r\nContent-Length: %s\r\n%sConnection: close\r\n\r\n%s' \
        "$1" "$(reason "$1")" "${#2}" "$line" "$2"
}

# ---- steps

# differs TITLE WHAT EXPECTED FOUND: shows a difference and ends the session.
differs() {
    printf '\nstep %d (%s) differs: %s\n' $((passed + 1)) "$part" "$1"
    printf '%s\n  expected: %q\n  found:    %q\n' "$2" "$3" "$4"
    if [ "$2" != 'standard error' ] && [ -s "$work/err" ]; then
        printf 'standard error was:\n'
        cat "$work/err"
    fi
    printf 'session: %d steps passed, step %d differs\n' "$passed" $((passed + 1))
    exit 1
}

# same TITLE WHAT EXPECTED FOUND: goes on where the two are equal.
same() {
    [ "$3" = "$4" ] || differs "$@"
}

# part TITLE: a part of the session begins.
part() {
    part=$1
    printf '== %s\n' "$part"
}

passes() {
    passed=$((passed + 1))
    printf '%3d  %s\n' "$passed" "$1"
}

# runs INPUT WORD..: runs the program, and puts what it writes and its exit status into `out`, `err` and
# `status`.
runs() {
    local input=$1
    shift
    timeout 120 "$SANDESK" "$@" < "$input" > "$work/out" 2> "$work/err"
    status=$?
    whole "$work/out" out
    whole "$work/err" err
}

# says TITLE STATUS OUT ERR WORD..: a command line, its exit status, and all that it writes. An ERR of
# `*` is any text but none.
says() {
    local title=$1 wanted_status=$2 wanted_out=$3 wanted_err=$4
    shift 4
    runs /dev/null "$@"
    same "$title" 'exit status' "$wanted_status" "$status"
    same "$title" 'standard output' "$wanted_out" "$out"
    if [ "$wanted_err" = '*' ]; then
        [ -n "$err" ] || differs "$title" 'standard error' 'some text' ''
    else
        same "$title" 'standard error' "$wanted_err" "$err"
    fi
    passes "$title"
}

# replies TITLE FILE STATUS BODY [HEADER-LINE]: a stored request at the moment `moment`, and the whole
# answer.
replies() {
    message "$3" "$4" "${5:-}"
    runs "$2" once --db "$db" --policy "$policy" --now "$moment"
    same "$1" 'exit status' 0 "$status"
    same "$1" 'the answer' "$answer" "$out"
    same "$1" 'standard error' '' "$err"
    passes "$1"
}

# request METHOD PATH TOKEN [BODY-FILE]: writes a request to the file `request`.
request() {
    {
        printf '%s %s HTTP/1.1\r\nAuthorization: Bearer %s\r\n' "$1" "$2" "$3"
        if [ -n "${4:-}" ]; then
            printf 'Content-Length: %d\r\n\r\n' "$(wc -c < "$4")"
            cat "$4"
        else
            printf '\r\n'
        fi
    } > "$work/request"
}

# asks TITLE TOKEN METHOD PATH STATUS BODY [BODY-FILE]: a request that is made here.
asks() {
    request "$3" "$4" "$2" "${7:-}"
    replies "$1" "$work/request" "$5" "$6"
}

# gives TITLE TOKEN PATH STATUS ANSWER BODY-TEXT: a put with a body that stands here.
gives() {
    printf '%s' "$6" > "$work/body"
    asks "$1" "$2" PUT "$3" "$4" "$5" "$work/body"
}

# stages TITLE TOKEN PLAN FILE STEPS: a plan text that is staged.
stages() {
    asks "$1" "$2" PUT "/plans/$3" 200 "{\"plan\":\"$3\",\"steps\":$5}" "$here/$4"
}

# activates TITLE TOKEN PLAN GAINED LOST REVISION
activates() {
    asks "$1" "$2" POST "/plans/$3/activate" 200 "{\"gained\":[$4],\"lost\":[$5],\"plan\":\"$3\",\"revision\":$6}"
}

# takes_back TITLE TOKEN PLAN GAINED LOST REVISION
takes_back() {
    asks "$1" "$2" POST "/plans/$3/rollback" 200 "{\"gained\":[$4],\"lost\":[$5],\"plan\":\"$3\",\"revision\":$6}"
}

# ---- connections

# Whether this bash can open connections.
has_sockets() {
    [[ $( (: < /dev/tcp/127.0.0.1/1) 2>&1) != *'No such file'* ]]
}

# A port of the loopback interface at which nobody listens.
free_port() {
    local tries
    for tries in 1 2 3 4 5 6 7 8 9 10; do
        port=$((20000 + RANDOM % 20000))
        (: < "/dev/tcp/127.0.0.1/$port") 2> /dev/null || return 0
    done
}

# serves WORD..: starts to serve the desk in the background.
serves() {
    free_port
    "$SANDESK" serve --db "$db" --policy "$policy" --listen "127.0.0.1:$port" "$@" \
        > "$work/log" 2> "$work/served" < /dev/null &
    server=$!
}

# connects: opens a connection as the descriptor 3, once somebody listens.
connects() {
    local tries=0
    until { exec 3<> "/dev/tcp/127.0.0.1/$port"; } 2> /dev/null; do
        tries=$((tries + 1))
        [ "$tries" -lt 200 ] || differs "$1" 'the listener' "a connection at 127.0.0.1:$port" "$(cat "$work/log")"
        sleep 0.1
    done
}

# hears TITLE TOKEN METHOD PATH STATUS BODY [BODY-FILE]: a request over a connection of its own.
hears() {
    request "$3" "$4" "$2" "${7:-}"
    connects "$1"
    cat "$work/request" >&3
    timeout 60 cat <&3 > "$work/out"
    exec 3>&-
    whole "$work/out" out
    message "$5" "$6"
    same "$1" 'the answer' "$answer" "$out"
    passes "$1"
}

# by_curl TITLE TOKEN PATH STATUS BODY
by_curl() {
    timeout 60 curl -s -i --noproxy '*' -H "Authorization: Bearer $2" "http://127.0.0.1:$port$3" > "$work/out"
    whole "$work/out" out
    message "$4" "$5"
    same "$1" 'the answer' "$answer" "$out"
    passes "$1"
}

# ends TITLE STATUS..: the program has ended with status 0, has written nothing to standard error, and its
# log is a line for each connection: the moment, this status, and the milliseconds. No token stands in it.
ends() {
    local title=$1 number='(0|[1-9][0-9]*)' form= wanted
    shift
    wait "$server"
    status=$?
    server=
    whole "$work/served" out
    same "$title" 'exit status' 0 "$status"
    same "$title" 'standard error' '' "$out"
    whole "$work/log" out
    [[ $out != *t-* ]] || differs "$title" 'the log' 'no token' "$out"
    for wanted in "$@"; do
        form+="$number $wanted $number ms"$'\n'
    done
    [[ $out =~ ^$form$ ]] || differs "$title" 'the log' "$form" "$out"
    passes "$title"
}

# ---- is there a program

if ! { [ -f "$SANDESK" ] && [ -x "$SANDESK" ]; }; then
    echo "session: there is no program $SANDESK" >&2
    exit 2
fi
# The first call builds the program where it is not built yet, and says so.
if ! "$SANDESK" once < /dev/null > /dev/null; then
    echo "session: the program $SANDESK does not start" >&2
    exit 2
fi

part 'words of the command line'

says 'without a subcommand nothing is done' 2 '' '*'
says 'help is no work done' 2 '' '*' import --help
says 'an option that the subcommand does not have' 2 '' '*' init --db "$db" --now 1
says 'an option is missing' 2 '' '*' paths --db "$db" --policy "$policy" --token t-ada
says 'once needs a policy for a database' 2 '' $'sandesk: words\n' once --db "$db"
says 'no fabric has this name' 2 '' $'sandesk: words\n' \
    export --db "$db" --policy "$policy" --token t-ada --fabric C
says 'no count has this text' 2 '' $'sandesk: words\n' \
    serve --db "$db" --policy "$policy" --listen 127.0.0.1:1 --count many
says 'a word that is not UTF-8' 2 '' $'sandesk: words\n' \
    paths --db "$db" --policy "$policy" --token t-ada --host $'\xff'

part 'a trial: one request over a new desk in memory'

# trial TITLE FILE STATUS BODY
trial() {
    message "$3" "$4"
    runs "$2" once
    same "$1" 'exit status' 0 "$status"
    same "$1" 'the answer' "$answer" "$out"
    same "$1" 'standard error' '' "$err"
    passes "$1"
}

trial 'a port list is imported' "$here/import.http" 200 '{"revision":1}'
trial 'the next trial knows nothing of it' "$here/joined.http" 404 "$not_found"
says 'an empty input has no answer' 0 '' '' once

part 'files that are checked'

# checks TITLE STATUS TEXT KIND FILE: what `check` writes of a file, behind its path.
checks() {
    local line wanted=
    while IFS= read -r line; do wanted+="$5: $line"$'\n'; done <<< "$3"
    says "$1" "$2" "$wanted" '' check "--$4" "$5"
}

install -m 600 "$policy" "$work/own.toml"
checks 'a policy without a fault' 0 'sound' policy "$work/own.toml"
install -m 644 "$policy" "$work/open.toml"
checks 'others may read its tokens' 0 $'sound\nwarning: mode 0644: others may read the tokens' policy "$work/open.toml"
text=$(cat "$policy")
printf '%s\n' "${text/approvals = 2/approvals = 17}" > "$work/wrong.toml"
chmod 600 "$work/wrong.toml"
checks 'a policy with a fault, and its key' 1 '`approvals` has a wrong value' policy "$work/wrong.toml"
text=${text/role = \"operator\"/role = \"operater\"}
text=${text/approvals = 2/approvals = 3}
printf '%s\n' "${text//, \"rollback\"/}" > "$work/odd.toml"
chmod 600 "$work/odd.toml"
checks 'what is no fault of it and is worth a look' 0 'sound
warning: rule 1 `ops` asks for role `operater`, which no caller has
warning: rule 3 `two-eyes` asks for more approvals than callers may give: 3 > 2
warning: no rule is about `rollback`: nobody may do it' policy "$work/odd.toml"
checks 'a plan without a fault' 0 'sound' plan "$here/first-host.plan"
checks 'a plan with two spaces in line 2' 1 \
    'line 2: too many words, or too few, stand behind the first' plan "$here/two-spaces.plan"
printf 'deactivate A\r\n' > "$work/dos.plan"
checks 'a line that ends with CR LF' 1 'line 1: a word is no fabric' plan "$work/dos.plan"
printf 'zone.put A z9 id=0x0101AB\n' > "$work/address.plan"
checks 'a plan with a member by address' 0 'sound' plan "$work/address.plan"
printf 'zone.put A z9 id=f00000\n' > "$work/no-address.plan"
checks 'a plan with an address of no domain' 1 'line 1: a word is no member' plan "$work/no-address.plan"
checks 'a port list' 0 'sound' ports "$here/fabric-a.csv"
checks 'a port list with addresses' 0 'sound' ports "$here/fabric-b.csv"
checks 'a record with a domain that there is not' 1 "record 3: it is no port's, or the header is another" \
    ports "$here/bad-domain.csv"
says 'there is no such file' 3 '' $'sandesk: file\n' check --plan "$work/none.plan"
says 'one file at a time' 2 '' $'sandesk: words\n' check --plan "$here/first-host.plan" --ports "$here/fabric-a.csv"

part 'a policy that is explained'

# explains TITLE STATUS TEXT WORD..: what `explain` writes of the policy.
explains() {
    local title=$1 wanted=$2 text=$3
    shift 3
    says "$title" "$wanted" "$text"$'\n' '' explain --policy "$policy" "$@"
}

explains 'fabric B, without two fresh approvals, in a freeze' 1 'rule 1 `ops` holds
  role `operator`: met
rule 3 `two-eyes` fails
  approvals 1 of 2: not met
rule 4 `quiet` fails
  window `early`: not met, opens at 351000
rule 5 `own` holds
  scope `own`: met
denied: rule 3 `two-eyes`, need approvals' --caller ada --action activate --fabric B --tenants green \
    --approved bob@6,dan@5 --revision 6 --now 350500
explains 'the same with both, on a Monday at 01:00' 0 'rule 1 `ops` holds
  role `operator`: met
rule 3 `two-eyes` holds
  approvals 2 of 2: met
rule 4 `quiet` holds
  window `early`: met
rule 5 `own` holds
  scope `own`: met
allowed' --caller ada --action activate --fabric A,B --approved bob@6,dan@6 --revision 6 --now 349200
explains "another tenant's things, and a caller without the role" 1 'rule 1 `ops` fails
  role `operator`: not met
rule 5 `own` fails
  scope `own`: not met
denied: rule 1 `ops`, need role' --caller eve --action inventory --tenants green,blue
explains 'a rule without a need' 0 'rule 2 `signers` holds
allowed' --caller eve --action approve
explains 'after Monday 02:00 the window opens a week later' 1 'rule 1 `ops` holds
  role `operator`: met
rule 3 `two-eyes` fails
  approvals 0 of 2: not met
rule 4 `quiet` fails
  window `early`: not met, opens at 954000
rule 5 `own` holds
  scope `own`: met
denied: rule 3 `two-eyes`, need approvals' --caller cyd --action activate --fabric B --now 352800
explains 'nobody has this name' 1 'no caller `zed`' --caller zed --action stage
printf '%s\n' '[[callers]]' 'name = "ada"' 'token = "t-ada"' 'roles = []' 'tenants = ["blue", "green"]' \
    '[[windows]]' 'name = "never"' 'weekly = []' \
    '[[rules]]' 'name = "quiet"' 'actions = ["stage"]' 'window = "never"' 'approvals = 1' 'fresh = true' > "$work/small.toml"
says 'a policy without its tokens' 0 '[[callers]]
name = "ada"
roles = [
]
tenants = [
  "blue",
  "green",
]
[[windows]]
name = "never"
weekly = [
]
freeze = [
]
[[rules]]
name = "quiet"
actions = [
  "stage",
]
window = "never"
approvals = 1
fresh = true
' '' explain --policy "$work/small.toml" --rules
says 'a window that never opens' 1 'rule 1 `quiet` fails
  window `never`: not met, never opens
  approvals 0 of 1: not met
denied: rule 1 `quiet`, need window
' '' explain --policy "$work/small.toml" --caller ada --action stage --now 0
chmod 600 "$work/small.toml"
checks 'a rule that nobody can meet' 0 'sound
warning: rule 1 `quiet` asks for window `never`, which is never open
warning: rule 1 `quiet` asks for approvals of `stage`, before which a plan has none
warning: no rule is about `import`: nobody may do it
warning: no rule is about `inventory`: nobody may do it
warning: no rule is about `withdraw`: nobody may do it
warning: no rule is about `approve`: nobody may do it
warning: no rule is about `dryrun`: nobody may do it
warning: no rule is about `activate`: nobody may do it
warning: no rule is about `rollback`: nobody may do it' policy "$work/small.toml"
says 'no rule is about it' 1 'denied: rule 0 `no-rule`, need rule
' '' explain --policy "$work/small.toml" --caller ada --action rollback --now 0
says 'the rules or a command' 2 '' $'sandesk: words\n' explain --policy "$policy" --rules --caller ada --action stage
says 'a command without a caller' 2 '' $'sandesk: words\n' explain --policy "$policy" --action stage
says 'no approval has this text' 2 '' $'sandesk: words\n' \
    explain --policy "$policy" --caller ada --action activate --approved bob@6,dan
says 'no action has this word' 2 '' $'sandesk: words\n' explain --policy "$policy" --caller ada --action format

part 'a desk in a file'

says 'there is no database yet' 3 '' $'sandesk: file\n' \
    export --db "$db" --policy "$policy" --token t-ada --fabric A
says 'a database is made' 0 '' '' init --db "$db"
says 'a database that is there is not made again' 3 '' $'sandesk: file\n' init --db "$db"
says 'there is no such policy' 3 '' $'sandesk: file\n' \
    export --db "$db" --policy "$work/none.toml" --token t-ada --fabric A
echo 'callers = 1' > "$work/wrong.toml"
says 'a policy with a fault, looked at before the database' 3 '' $'sandesk: policy\n' \
    export --db "$work/none.db" --policy "$work/wrong.toml" --token t-ada --fabric A
says 'there is no such place to listen at' 3 '' $'sandesk: listen\n' \
    serve --db "$db" --policy "$policy" --listen nowhere
says 'a new desk has nothing active' 0 $'fabric A\nactive -\ndefault deny\n' '' \
    export --db "$db" --policy "$policy" --token t-ada --fabric A

part 'ports'

# imports TITLE STATUS ANSWER TOKEN FABRIC FILE
imports() {
    says "$1" "$2" "$3"$'\n' '' \
        import --db "$db" --policy "$policy" --token "$4" --fabric "$5" --file "$here/$6" --now 0
}

imports 'the ports of fabric A' 0 '{"revision":1}' t-ada A fabric-a.csv
imports 'nobody has this token' 1 '{"code":1,"error":"no-caller"}' t-zed A fabric-a.csv
imports 'eve is no operator' 1 "$(denied role 1 ops)" t-eve A fabric-a.csv
imports 'a record with a domain that there is not' 1 \
    '{"code":7,"error":"bad-body","line":3}' t-ada A bad-domain.csv
imports 'two records of one port that differ' 1 \
    '{"code":20,"error":"port-clash","port":"'$i1'"}' t-ada A port-clash.csv
imports 'the ports of fabric B' 0 '{"revision":2}' t-ada B fabric-b.csv
says 'there is no such port list' 3 '' $'sandesk: file\n' \
    import --db "$db" --policy "$policy" --token t-ada --fabric A --file "$work/none.csv"

part 'hosts, an array, volumes'

replies 'the host db1, with a port in each fabric' "$here/put-db1.http" 200 '{"revision":3}'
replies 'the host db2' "$here/put-db2.http" 200 '{"revision":4}'
replies 'the array arr1' "$here/put-arr1.http" 200 '{"revision":5}'
replies 'the volume v1' "$here/put-v1.http" 200 '{"revision":6}'
replies 'the volume v2' "$here/put-v2.http" 200 '{"revision":7}'
gives 'a port that another host holds' t-ada /hosts/db3 409 \
    '{"by":"db1","code":11,"error":"in-use","name":"'$i1'"}' '{"ports":["'$i1'"],"tenant":"blue"}'
gives 'a port that is not known' t-ada /hosts/db3 409 \
    '{"code":12,"error":"unknown-name","name":"10:00:00:00:00:00:00:99"}' \
    '{"ports":["1000000000000099"],"tenant":"blue"}'
gives 'an array with the name of a host' t-ada /arrays/db1 409 \
    '{"code":10,"error":"exists","name":"db1"}' '{"ports":[],"tenant":"blue"}'
gives 'a body without its tenant' t-ada /hosts/db3 400 \
    '{"code":7,"error":"bad-body","line":0}' '{"ports":[]}'
gives 'cyd makes no host of green' t-cyd /hosts/db3 403 "$(denied scope 5 own)" \
    '{"ports":[],"tenant":"green"}'
asks 'a port, and where it is logged in' t-eve GET "/ports/$i4" 200 \
    '{"at":{"address":"010100","domain":1,"fabric":"B","port":1},"node_name":"20:00:00:00:00:00:00:01","port_name":"'$i4'"}'
asks 'a host' t-cyd GET /hosts/db1 200 \
    '{"kind":"host","name":"db1","ports":["'$i1'","'$i4'"],"tenant":"blue"}'
asks 'cyd does not see a host of green' t-cyd GET /hosts/db2 404 "$not_found"
asks 'an array' t-ada GET /arrays/arr1 200 \
    '{"kind":"array","name":"arr1","ports":["'$t1'","'$t2'","'$t3'"],"tenant":"store"}'
asks 'two ports that no zone has' t-eve GET "/joined/$i1/$t1" 200 '{"joined":false}'

part 'a first plan'

stages 'it is staged' t-ada p1 first-host.plan 10
stages 'and staged again, which changes nothing' t-ada p1 first-host.plan 10
asks 'cyd can not take its name' t-cyd PUT /plans/p1 409 \
    '{"code":10,"error":"exists","name":"p1"}' "$here/first-host.plan"
asks 'a plan text with two spaces in line 2' t-ada PUT /plans/p0 400 \
    '{"code":7,"error":"bad-body","line":2}' "$here/two-spaces.plan"
says 'a dry run tells the path that it would give' 0 '{"gained":['"$first"'],"lost":[],"plan":"p1"}'$'\n' '' \
    dryrun --db "$db" --policy "$policy" --token t-ada --plan p1 --now 0
says 'a dry run of a plan that is not there' 1 "$not_found"$'\n' '' \
    dryrun --db "$db" --policy "$policy" --token t-ada --plan p9 --now 0
changed='revision 7
- meta active.A -
+ meta active.A s1
'"+ zoning A alias disk wwpn=$t1
+ zoning A zone z1 wwpn=$i1
+ zoning A zone z1 alias=disk
+ zoning A set s1 z1
+ active A z1 wwpn=$i1
+ active A z1 wwpn=$t1"'
+ groups host hosts1 blue
+ groups storage g1 blue arr1 exposed
+ group_parts host hosts1 host db1
+ group_parts storage g1 hostgroup hosts1
'"+ group_parts storage g1 target $t1"'
+ group_parts storage g1 unit 0 v1
paths: 0 lost, 1 gained; hosts left on one fabric: none; hosts left without a path: none'
says 'the rows that it would change' 0 "$changed"$'\n' '' \
    diff --db "$db" --policy "$policy" --token t-ada --plan p1
says 'eve may not try it, and is told no row' 1 "$(denied role 6 reviewers)"$'\n' '' \
    diff --db "$db" --policy "$policy" --token t-eve --plan p1
asks 'bob, who is to approve it, tries it too' t-bob GET /plans/p1/dryrun 200 \
    '{"gained":['"$first"'],"lost":[],"plan":"p1"}'
asks 'eve may not try it' t-eve GET /plans/p1/dryrun 403 "$(denied role 6 reviewers)"
asks 'its author can not approve it' t-ada POST /plans/p1/approve 409 '{"code":19,"error":"own-plan"}'
asks 'bob approves it' t-bob POST /plans/p1/approve 200 '{"approvals":1,"plan":"p1","revision":7}'
asks 'eve may not activate it' t-eve POST /plans/p1/activate 403 "$(denied role 1 ops)"
activates 'ada activates it' t-ada p1 "$first" '' 8
asks 'an active plan is not activated again' t-ada POST /plans/p1/activate 409 \
    '{"code":16,"error":"wrong-state","state":"active"}'
header=$'fabric,host,initiator,target,volume,lun\n'
says 'the paths of db1' 0 "${header}A,db1,$i1,$t1,v1,0"$'\n' '' \
    paths --db "$db" --policy "$policy" --token t-cyd --host db1
says 'db2 has no path' 0 "$header" '' \
    paths --db "$db" --policy "$policy" --token t-ada --host db2
says 'cyd does not see the paths of db2' 1 "$not_found"$'\n' '' \
    paths --db "$db" --policy "$policy" --token t-cyd --host db2
columns=$'HOST                     VOLUME                        A      B STATE\n'
says 'db1 reaches its volume over one fabric' 0 \
    "$columns"$'db1                      v1                            1      0 ONE\n' '' \
    report --db "$db" --policy "$policy" --token t-ada --host db1
asks 'the zone that joins its ports' t-eve GET "/joined/$i1/$t1" 200 \
    '{"joined":true,"why":"zone","zone":"z1"}'
says 'what is active in fabric A: aliases are replaced' 0 \
    $'fabric A\nactive s1\ndefault deny\n'"z1 wwpn=$i1"$'\n'"z1 wwpn=$t1"$'\n' '' \
    export --db "$db" --policy "$policy" --token t-eve --fabric A
asks 'the same as JSON' t-eve GET /active/A 200 \
    '{"active":"s1","default":"deny","fabric":"A","zones":[{"members":["wwpn='$i1'","wwpn='$t1'"],"name":"z1"}]}'
asks 'an alias' t-eve GET /aliases/A/disk 200 '{"fabric":"A","members":["wwpn='$t1'"],"name":"disk"}'
asks 'a host group' t-cyd GET /hostgroups/hosts1 200 '{"hosts":["db1"],"name":"hosts1","tenant":"blue"}'

part 'looks: why, who, and what there is'

# row TEXT..: a line of columns.
row() {
    local cell
    for cell in "${@:1:$#-1}"; do
        printf '%-24s ' "$cell"
    done
    printf '%s\n' "${!#}"
}

# looks TITLE STATUS OUT TOKEN WORD..
looks() {
    local title=$1 wanted=$2 text=$3 token=$4
    shift 4
    says "$title" "$wanted" "$text"$'\n' '' "$1" --db "$db" --policy "$policy" --token "$token" "${@:2}"
}

node=20:00:00:00:00:00:00:01
way=$(printf 'host %s\n' "$(row db1 blue 2)"
    printf 'port %s\n' "$(row $i1 $node A)" "$(row $i4 $node B)"
    printf 'volume %s\n' "$(row v1 blue arr1 1073741824)"
    printf 'group %s\n' "$(row g1 blue arr1 exposed)")
looks 'why db1 reaches v1' 0 \
    "$way"$'\n'"pair A $i1 -> $t1  zone z1"$'\n'"path A $i1 -> $t1 unit 0"$'\n''YES  1 path: A 1, B 0' t-cyd \
    why --host db1 --volume v1
looks 'a host and a volume that are not there' 1 \
    '{"found":[],"host":"db2","missing":"host","pairs":[],"reaches":false,"volume":"v9"}' t-cyd \
    why --host db2 --volume v9 --json
looks 'cyd is told of another host as of none' 1 \
    "$(printf '%s\n' "$way" | tail -n 2)"$'\n''NO  there is no such host, or it is not yours' t-cyd \
    why --host db2 --volume v1
looks 'who reaches v1, and by what' 0 "$(row HOST TENANT UNIT A B GROUPS; row db1 blue 0 1 0 g1)" t-cyd who --volume v1
looks 'eve is told of nobody' 0 "$(row HOST TENANT UNIT A B GROUPS)" t-eve who --volume v1
looks 'the same as JSON' 0 \
    '[{"a":1,"b":0,"groups":["g1"],"host":"db1","tenant":"blue","units":[0]}]' t-ada who --volume v1 --json
looks 'what is around a target' 0 \
    "$(printf 'port %s\n' "$(row $t1 50:00:00:00:00:00:00:00 A)"
    printf 'zone %s\n' "$(row A z1 2)"
    printf 'group %s\n' "$(row g1 blue arr1 exposed)")" t-cyd who --port $t1
looks 'what is around a port of a host, as JSON' 0 \
    '[{"at":{"address":"010100","domain":1,"fabric":"B","port":1},"node_name":"20:00:00:00:00:00:00:01","port_name":"'$i4'"},{"kind":"host","name":"db1","ports":["'$i1'","'$i4'"],"tenant":"blue"}]' \
    t-cyd who --port $i4 --json
says 'there is no such port' 1 '' '' \
    who --db "$db" --policy "$policy" --token t-cyd --port 10:00:00:00:00:00:00:99
says 'a volume or a port' 2 '' $'sandesk: words\n' \
    who --db "$db" --policy "$policy" --token t-cyd --port $i4 --volume v1
looks 'the hosts of cyd' 0 "$(row NAME TENANT PORTS; row db1 blue 2)" t-cyd list hosts
looks 'the hosts of cyd as JSON' 0 \
    '[{"kind":"host","name":"db1","ports":["'$i1'","'$i4'"],"tenant":"blue"}]' t-cyd list hosts --json
looks 'the plans, and who approved them' 0 \
    "$(row PLAN STATE AUTHOR APPROVALS; row p1 active ada 1)"$'\n''  approved by bob at revision 7, stale' t-eve list plans
looks 'none of them is staged' 0 "$(row PLAN STATE AUTHOR APPROVALS)" t-eve list plans --state staged
text=$(cat "$here/first-host.plan")
looks 'the active ones as JSON' 0 \
    '[{"approvals":[{"caller":"bob","revision":7}],"author":"ada","plan":"p1","state":"active","text":"'"${text//$'\n'/\\n}"'\n"}]' \
    t-eve list plans --state active --json
looks 'the zones of both fabrics' 0 "$(row FABRIC NAME MEMBERS; row A z1 2)" t-eve list zones
looks 'nobody has this token' 1 '{"code":1,"error":"no-caller"}' t-zed list hosts
gone='ports: 0 listed, 0 new, 0 moved, 5 logged out
paths: 0 gained, 1 lost (1 host); over A alone or B alone afterwards: none; without a path afterwards: 1 host: db1'
looks 'what an import would lose' 0 "$gone" t-ada tryimport --fabric A --file "$here/no-ports.csv"
looks 'as much as it may' 0 "$gone" t-ada tryimport --fabric A --file "$here/no-ports.csv" --most-lost 1
looks 'more than it may' 1 "$gone"$'\n''refused: 1 > 0' t-ada \
    tryimport --fabric A --file "$here/no-ports.csv" --most-lost 0
says 'there is no such kind' 2 '' $'sandesk: words\n' \
    list --db "$db" --policy "$policy" --token t-ada switches
says 'only plans are in a state' 2 '' $'sandesk: words\n' \
    list --db "$db" --policy "$policy" --token t-ada hosts --state staged
says 'a list of nothing' 2 '' '*' list --db "$db" --policy "$policy" --token t-ada

part 'a plan on fabric B: two fresh approvals, in a window'

stages 'it is staged' t-ada q1 fabric-b.plan 4
moment=349200
asks 'nobody has approved it' t-ada POST /plans/q1/activate 403 "$(denied approvals 3 two-eyes)"
asks 'bob approves it' t-bob POST /plans/q1/approve 200 '{"approvals":1,"plan":"q1","revision":8}'
asks 'dan approves it' t-dan POST /plans/q1/approve 200 '{"approvals":2,"plan":"q1","revision":8}'
moment=350000
asks 'it does not go into a freeze' t-ada POST /plans/q1/activate 403 "$(denied window 4 quiet)"
moment=352800
asks 'nor behind the window' t-ada POST /plans/q1/activate 403 "$(denied window 4 quiet)"
imports 'a change comes in between' 0 '{"revision":9}' t-ada A fabric-a.csv
moment=349200
asks 'so the approvals are not fresh' t-ada POST /plans/q1/activate 403 "$(denied approvals 3 two-eyes)"
asks 'bob approves it again' t-bob POST /plans/q1/approve 200 '{"approvals":2,"plan":"q1","revision":9}'
asks 'dan approves it again' t-dan POST /plans/q1/approve 200 '{"approvals":2,"plan":"q1","revision":9}'
activates 'it is activated' t-ada q1 "$second" '' 10
moment=0
asks 'the plan, its author and its approvals' t-eve GET /plans/q1 200 \
    '{"approvals":[{"caller":"bob","revision":9},{"caller":"dan","revision":9}],"author":"ada","plan":"q1","state":"active","text":"zone.put B zb1 wwpn='$i4' wwpn='$t3'\nset.put B sb1 zb1\nactivate B sb1\nsg.target g1 '$t3'\n"}'
says 'db1 reaches its volume over both fabrics' 0 \
    "$columns"$'db1                      v1                            1      1 BOTH\n' '' \
    report --db "$db" --policy "$policy" --token t-ada --host db1

part 'plans that do not fit, and a way back'

stages 'a plan with two volumes at one unit' t-ada p2 unit-clash.plan 5
says 'its dry run is refused as its activation would be' 1 \
    '{"code":14,"error":"unit-clash","host":"db1","lun":0,"step":0,"target":"'$t1'"}'$'\n' '' \
    dryrun --db "$db" --policy "$policy" --token t-ada --plan p2 --now 0
asks 'it is withdrawn' t-ada DELETE /plans/p2 200 '{"plan":"p2","state":"withdrawn"}'
asks 'and can not be activated any more' t-ada POST /plans/p2/activate 409 \
    '{"code":16,"error":"wrong-state","state":"withdrawn"}'
stages 'a plan that names a zone that is not there' t-ada p3 unknown-zone.plan 3
asks 'its third line is refused' t-ada POST /plans/p3/activate 409 \
    '{"code":12,"error":"unknown-name","name":"z9","step":3}'
asks 'and its first line has done nothing' t-ada GET "/joined/$t2/$i2" 200 '{"joined":false}'
stages 'a plan that gives db1 another volume' t-ada p4 other-volume.plan 6
activates 'it is activated' t-ada p4 "$other" "$first,$second" 11
asks 'p1 is not the last one in force' t-ada POST /plans/p1/rollback 409 \
    '{"code":17,"error":"not-last","last":"p4"}'
takes_back 'p4 is taken back' t-ada p4 "$first,$second" "$other" 12

part 'tenants'

stages 'a host of another tenant' t-ada p5 second-host.plan 9
activates 'it is activated' t-ada p5 "$green" '' 13
stages 'cyd narrows a zone' t-cyd p6 narrow-zone.plan 2
says 'the dry run shows whose paths would go' 0 '{"gained":[],"lost":['"$green"'],"plan":"p6"}'$'\n' '' \
    dryrun --db "$db" --policy "$policy" --token t-cyd --plan p6 --now 0
asks 'cyd may not activate it' t-cyd POST /plans/p6/activate 403 "$(denied scope 5 own)"
asks 'a zone, with its members in order' t-cyd GET /zones/A/z3 200 \
    '{"fabric":"A","members":["wwpn='$t1'","dp=12,5"],"name":"z3"}'
asks 'a zone set' t-cyd GET /sets/A/s1 200 '{"fabric":"A","name":"s1","zones":["z1","z3"]}'
asks 'a storage group' t-cyd GET /groups/g1 200 \
    '{"array":"arr1","exposed":true,"host_groups":["hosts1"],"name":"g1","targets":["'$t1'","'$t3'"],"tenant":"blue","units":[{"lun":0,"volume":"v1"}]}'

part 'what is in use, and what is gone'

asks 'a host group has db1' t-ada DELETE /hosts/db1 409 \
    '{"by":"hosts1","code":11,"error":"in-use","name":"db1"}'
asks 'there is no db9' t-ada DELETE /hosts/db9 404 "$not_found"
stages 'v1 is unmapped' t-ada p7 unmap.plan 1
asks 'bob approves it' t-bob POST /plans/p7/approve 200 '{"approvals":1,"plan":"p7","revision":13}'
asks 'the plan, staged and approved' t-eve GET /plans/p7 200 \
    '{"approvals":[{"caller":"bob","revision":13}],"author":"ada","plan":"p7","state":"staged","text":"sg.unmap g1 0\n"}'
activates 'and its paths are lost' t-ada p7 '' "$first,$second" 14
asks 'so it can be dropped' t-ada DELETE /volumes/v1 200 '{"revision":15}'
asks 'and what named it can not be put back' t-ada POST /plans/p7/rollback 409 \
    '{"code":18,"error":"gone","name":"v1"}'
replies 'v1 comes back' "$here/put-v1.http" 200 '{"revision":16}'
takes_back 'and its paths with it' t-ada p7 "$first,$second" '' 17

part 'three plans taken back in turn, each by a desk that is opened anew, in a copy'

lasting=$db
db=$work/back.db
cp "$lasting" "$db"
if [ -e "$lasting-wal" ]; then cp "$lasting-wal" "$db-wal"; fi
takes_back 'the last one in force' t-ada p5 '' "$green" 18
asks 'p1 has to wait for the one on fabric B' t-ada POST /plans/p1/rollback 409 \
    '{"code":17,"error":"not-last","last":"q1"}'
takes_back 'the one on fabric B' t-ada q1 '' "$second" 19
takes_back 'the first' t-ada p1 '' "$first" 20
asks 'nothing is left of it' t-ada GET /groups/g1 404 "$not_found"
asks 'nor of its zone' t-ada GET /zones/A/z1 404 "$not_found"
asks 'and it stays as it is' t-ada POST /plans/p1/rollback 409 \
    '{"code":16,"error":"wrong-state","state":"rolled-back"}'
db=$lasting

part 'the default zone, in a desk of its own'

lasting=$db
db=$work/other.db
says 'another database is made' 0 '' '' init --db "$db"
asks 'nothing is active in it' t-eve GET /active/A 200 '{"active":null,"default":"deny","fabric":"A","zones":[]}'
replies 'two ports' "$here/import.http" 200 '{"revision":1}'
replies 'may not communicate' "$here/joined.http" 200 '{"joined":false}'
stages 'a plan by which the default zone permits' t-ada d1 permit.plan 1
activates 'it is activated' t-ada d1 '' '' 2
replies 'and they may' "$here/joined.http" 200 '{"joined":true,"why":"default"}'
asks 'but no port with itself' t-eve GET "/joined/$i1/$i1" 200 '{"joined":false}'
imports 'a list of no port' 0 '{"revision":3}' t-ada A no-ports.csv
asks 'a port that is logged in nowhere' t-eve GET "/ports/$i1" 200 \
    '{"at":null,"node_name":"20:00:00:00:00:00:00:01","port_name":"'$i1'"}'
db=$lasting

part 'requests as bytes'

both='{"host":"db1","paths":['"$first,$second"']}'
replies 'the paths of db1' "$here/paths.http" 200 "$both"
replies 'an escape in a path' "$here/escaped.http" 200 "$both"
replies 'a token that nobody has' "$here/no-caller.http" 401 '{"code":1,"error":"no-caller"}' \
    'WWW-Authenticate: Bearer'
replies 'a head that ends too early' "$here/cut-head.http" 400 '{"code":2,"error":"bad-head"}'
replies 'a question mark in a path' "$here/no-route.http" 404 '{"code":3,"error":"no-route"}'
replies 'a method that the path does not take' "$here/wrong-method.http" 405 \
    '{"code":4,"error":"bad-method"}' 'Allow: GET'
replies 'a body without its length' "$here/no-length.http" 411 '{"code":5,"error":"no-length"}'
replies 'a body that is too long' "$here/too-large.http" 413 '{"code":6,"error":"too-large"}'
replies 'a body that ends too early' "$here/cut-body.http" 400 '{"code":7,"error":"bad-body","line":0}'

# Requests over sockets, through bash's own redirections.
connections() {
    imported='{"host":"db1","paths":['"$second"']}'
    serves --count 3
    hears 'an import of no port takes all ports of fabric A out' t-ada POST /imports/A 200 \
        '{"revision":18}' "$here/no-ports.csv"
    hears 'and db1 keeps its path over fabric B' t-ada GET /paths/db1 200 "$imported"
    if type -p curl > /dev/null; then
        by_curl 'the same, asked by curl' t-ada /paths/db1 200 "$imported"
    else
        left_out="$left_out, a request by curl (there is no curl)"
        hears 'the same once more' t-ada GET /paths/db1 200 "$imported"
    fi
    ends 'three connections are served, with a line in the log for each' 200 200 200
    imports 'the ports of fabric A come back' 0 '{"revision":19}' t-ada A fabric-a.csv
    serves
    printf '%s' '{"array":"arr1","bytes":512,"tenant":"blue"}' > "$work/body"
    hears 'a volume is put' t-ada PUT /volumes/v3 200 \
        '{"revision":20}' "$work/body"
    says 'while it serves, no subcommand opens its database' 3 '' $'sandesk: store\n' \
        paths --db "$db" --policy "$policy" --token t-ada --host db1
    kill -9 "$server"
    wait "$server" 2> /dev/null
    server=
    asks 'it is ended by force, and what was answered is kept' t-cyd GET /volumes/v3 200 \
        '{"array":"arr1","bytes":512,"name":"v3","tenant":"blue"}'
    says 'and all paths are there' 0 "${header}A,db1,$i1,$t1,v1,0"$'\n'"B,db1,$i4,$t3,v1,0"$'\n' '' \
        paths --db "$db" --policy "$policy" --token t-ada --host db1
}

part 'connections'

if has_sockets; then
    connections
else
    left_out="$left_out, connections (this bash has no /dev/tcp)"
fi

part 'the database'

# edited NAME SQL: a copy of the database, changed behind the desk's back.
edited() {
    sqlite3 "$db" ".backup '$work/$1'" && sqlite3 "$work/$1" "$2"
}

if type -p sqlite3 > /dev/null; then
    same 'a backup by sqlite3' 'what sqlite3 says' ok "$(edited copy.db 'PRAGMA integrity_check' 2>&1)"
    passes 'a backup by sqlite3'
    says 'a desk over the backup' 0 "${header}A,db2,$i2,$t1,v2,0"$'\n'"A,db2,$i3,$t1,v2,0"$'\n' '' \
        paths --db "$work/copy.db" --policy "$policy" --token t-eve --host db2
    edited newer.db "UPDATE meta SET value = '3' WHERE key = 'schema'"
    says 'tables of a schema to come' 3 '' $'sandesk: newer-schema 3\n' \
        export --db "$work/newer.db" --policy "$policy" --token t-ada --fabric A
    edited damaged.db "INSERT INTO zoning VALUES ('A', 'set', 's1', 'z9')"
    edited addressed.db "INSERT INTO addresses VALUES ('5000000000000009', '0101AB')"
    says 'an address that is not in its form' 3 '' $'sandesk: damaged addresses\n' \
        export --db "$work/addressed.db" --policy "$policy" --token t-ada --fabric A
    says 'a set with a zone that is not there' 3 '' $'sandesk: damaged zoning\n' \
        export --db "$work/damaged.db" --policy "$policy" --token t-ada --fabric A
    cp "$here/../bench/schema-1/row-5.db" "$work/earlier.db"
    says 'a database of schema 1' 0 "${header}A,db1,$i1,$t1,v1,0"$'\n' '' \
        paths --db "$work/earlier.db" --policy "$policy" --token t-ada --host db1
    same 'a database of schema 1' 'its schema then' '2' \
        "$(sqlite3 "$work/earlier.db" "SELECT value FROM meta WHERE key = 'schema'" 2>&1)"
    passes 'it is of schema 2 then'
else
    left_out="$left_out, copies of the database (there is no sqlite3)"
fi

[ -z "$left_out" ] || printf 'left out: %s\n' "${left_out#, }"
printf 'session: all %d steps passed\n' "$passed"
