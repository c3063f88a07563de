#!/bin/sh
# The example ceremony, as calls of curl to a register that is empty. In one window:
#     kcr serve --port 8053 --connections 1000 --file register.db
# and in another:
#     examples/ceremony.sh http://127.0.0.1:8053 FOLDER
# Each answer is a line: its status, the request, and the body. The annotated script and the attendance go into FOLDER,
# which is the working folder where none is given. It ends with status 1 at the first answer whose status is another one
# than stands here. Written by make.py.
set -eu
url=${1:-http://127.0.0.1:8053}
folder=${2:-.}
here=$(dirname "$0")

# The text of a file as it stands in a text of JSON.
text() {
  sed 's/["\\]/\\&/g' "$here/$1" | awk '{ printf "%s\\n", $0 }'
}

# Asks, and prints the answer. $1 the status that it gets, $2 the method, $3 the path, $4 the body, if it has one.
ask() {
  told=$(curl --noproxy '*' -sS -X "$2" ${4+-H 'Content-Type: application/json' --data-binary "$4"} \
    -w '\n%{http_code}' "$url$3") || exit 1
  status=${told##*
}
  printf '%s %s %s %s\n' "$status" "$2" "$3" "${told%
*}"
  test "$status" = "$1" || { echo "ceremony.sh: the status is $status, and not $1" >&2; exit 1; }
}

# Keeps a report. $1 the path, $2 the name of the file.
keep() {
  status=$(curl --noproxy '*' -sS -o "$folder/$2" -w '%{http_code}' "$url$1") || exit 1
  printf '%s GET %s > %s\n' "$status" "$1" "$2"
  test "$status" = 200 || { echo "ceremony.sh: the status is $status, and not 200" >&2; exit 1; }
}

# AL is entered
ask 200 POST /people '{"key":"person-AL","who":"AL","name":"Ada Lund"}'

# AL is trained as CA
ask 200 POST /people/AL/roles '{"key":"trained-AL-CA","role":"CA","from":"2025-01-01","until":"2025-12-31"}'

# CD is entered
ask 200 POST /people '{"key":"person-CD","who":"CD","name":"Chi Dang"}'

# CD is trained as IW
ask 200 POST /people/CD/roles '{"key":"trained-CD-IW","role":"IW","from":"2025-01-01","until":"2025-12-31"}'

# CD is trained as SW
ask 200 POST /people/CD/roles '{"key":"trained-CD-SW","role":"SW","from":"2025-01-01","until":"2025-12-31"}'

# DS is entered
ask 200 POST /people '{"key":"person-DS","who":"DS","name":"Dora Silva"}'

# DS is trained as SA
ask 200 POST /people/DS/roles '{"key":"trained-DS-SA","role":"SA","from":"2025-01-01","until":"2025-12-31"}'

# EQ is entered
ask 200 POST /people '{"key":"person-EQ","who":"EQ","name":"Erik Quist"}'

# EQ is trained as SSC1
ask 200 POST /people/EQ/roles '{"key":"trained-EQ-SSC1","role":"SSC1","from":"2025-01-01","until":"2025-12-31"}'

# FM is entered
ask 200 POST /people '{"key":"person-FM","who":"FM","name":"Fay Moreau"}'

# FM is trained as SSC2
ask 200 POST /people/FM/roles '{"key":"trained-FM-SSC2","role":"SSC2","from":"2025-01-01","until":"2025-12-31"}'

# GT is entered
ask 200 POST /people '{"key":"person-GT","who":"GT","name":"Tanaka, Gil"}'

# GT is trained as RKOS
ask 200 POST /people/GT/roles '{"key":"trained-GT-RKOS","role":"RKOS","from":"2025-01-01","until":"2025-12-31"}'

# HN is entered
ask 200 POST /people '{"key":"person-HN","who":"HN","name":"Hana Novák"}'

# HN is trained as SW
ask 200 POST /people/HN/roles '{"key":"trained-HN-SW","role":"SW","from":"2025-01-01","until":"2025-12-31"}'

# PW is entered
ask 200 POST /people '{"key":"person-PW","who":"PW","name":"Per Wirth"}'

# PW is trained as CA
ask 200 POST /people/PW/roles '{"key":"trained-PW-CA","role":"CA","from":"2025-01-01","until":"2025-12-31"}'

# PW is trained as IW
ask 200 POST /people/PW/roles '{"key":"trained-PW-IW","role":"IW","from":"2025-01-01","until":"2025-12-31"}'

# RB is entered
ask 200 POST /people '{"key":"person-RB","who":"RB","name":"Rosa Bauer"}'

# RB is trained as IW
ask 200 POST /people/RB/roles '{"key":"trained-RB-IW","role":"IW","from":"2025-01-01","until":"2025-12-31"}'

# JB is entered
ask 200 POST /people '{"key":"person-JB","who":"JB","name":"Joan O'"'"'Brien"}'

# KV is entered
ask 200 POST /people '{"key":"person-KV","who":"KV","name":"Kofi Vance"}'

# LR is entered
ask 200 POST /people '{"key":"person-LR","who":"LR","name":"Lea \"Lou\" Rossi"}'

# NI is entered
ask 200 POST /people '{"key":"person-NI","who":"NI","name":"Nils Iversen"}'

# OT is entered
ask 200 POST /people '{"key":"person-OT","who":"OT","name":"Olu Taiwo"}'

# VS is entered
ask 200 POST /people '{"key":"person-VS","who":"VS","name":"Vera Stone"}'

# JB holds CO-EAST-1 from then on
ask 200 POST /custodians '{"key":"appoint-CO-EAST-1","place":"CO-EAST-1","who":"JB","day":"2025-01-01"}'

# KV holds CO-EAST-2 from then on
ask 200 POST /custodians '{"key":"appoint-CO-EAST-2","place":"CO-EAST-2","who":"KV","day":"2025-01-01"}'

# OT holds CO-EAST-3 from then on
ask 200 POST /custodians '{"key":"appoint-CO-EAST-3","place":"CO-EAST-3","who":"OT","day":"2025-01-01"}'

# NI holds CO-EAST-5 from then on
ask 200 POST /custodians '{"key":"appoint-CO-EAST-5","place":"CO-EAST-5","who":"NI","day":"2025-01-01"}'

# box 101 belongs to CO-EAST-1
ask 200 POST /boxes '{"key":"box-101","facility":"EAST","box":101,"place":"CO-EAST-1"}'

# box 102 belongs to CO-EAST-2
ask 200 POST /boxes '{"key":"box-102","facility":"EAST","box":102,"place":"CO-EAST-2"}'

# box 105 belongs to CO-EAST-5
ask 200 POST /boxes '{"key":"box-105","facility":"EAST","box":105,"place":"CO-EAST-5"}'

# a custodian is never trained for a role of the staff: 15 apart
ask 409 POST /people/JB/roles '{"key":"trained-JB-CA","role":"CA","from":"2025-01-01","until":"2025-12-31"}'

# initials are capital letters: 10 form
ask 422 POST /people '{"key":"person-v","who":"v","name":"Vera Stone"}'

# a small ceremony is planned, by which the material comes in
ask 200 POST /ceremonies '{"key":"60-plan","number":60,"facility":"EAST","day":"2025-01-15","script":"step,activity,seats\n1,See that all who are in the room stand on the sheet,CA;IW\n2,\"Take over the module, the laptop and the medium; compare their numbers with the delivery note\",CA;IW;SA\n3,Seal each of them into a bag of its own,CA;IW\n4,Put the bags into safe 1,CA;IW;SSC1\n5,Seal the cards of each Crypto Officer into a bag,CA;IW;CO*3\n6,Put the bags into the boxes of their places,CA;IW;SSC2;CO*3\n7,See that both safes are shut,CA;IW\n"}'

# it is opened
ask 200 POST /ceremonies/60/opening '{"key":"60-opening","at":"2025-01-15T18:00:00Z"}'

# eight people come in
ask 200 POST /ceremonies/60/sheet '{"key":"60-in","way":"in","who":["AL","CD","DS","EQ","FM","JB","KV","NI"],"at":"2025-01-15T18:01:00Z"}'

# step 1 is signed
ask 200 POST /ceremonies/60/steps/1/signature '{"key":"60-step-1","at":"2025-01-15T18:05:00Z"}'

# HSM7 comes to the facility
ask 200 POST /items '{"key":"60-HSM7","ceremony":60,"item":"HSM7","at":"2025-01-15T18:05:20Z"}'

# LAPTOP4 comes to the facility
ask 200 POST /items '{"key":"60-LAPTOP4","ceremony":60,"item":"LAPTOP4","at":"2025-01-15T18:05:40Z"}'

# MEDIUM12 comes to the facility
ask 200 POST /items '{"key":"60-MEDIUM12","ceremony":60,"item":"MEDIUM12","at":"2025-01-15T18:06:00Z"}'

# PRINTER2 comes to the facility
ask 200 POST /items '{"key":"60-PRINTER2","ceremony":60,"item":"PRINTER2","at":"2025-01-15T18:06:20Z"}'

# step 2 is signed
ask 200 POST /ceremonies/60/steps/2/signature '{"key":"60-step-2","at":"2025-01-15T18:11:20Z"}'

# HSM7 goes into a bag
ask 200 POST /ceremonies/60/bags/BB51184601/seal '{"key":"60-seal-BB51184601","items":["HSM7"],"at":"2025-01-15T18:12:50Z"}'

# LAPTOP4 goes into a bag
ask 200 POST /ceremonies/60/bags/BB51184602/seal '{"key":"60-seal-BB51184602","items":["LAPTOP4"],"at":"2025-01-15T18:14:20Z"}'

# MEDIUM12 goes into a bag
ask 200 POST /ceremonies/60/bags/BB51184603/seal '{"key":"60-seal-BB51184603","items":["MEDIUM12"],"at":"2025-01-15T18:15:50Z"}'

# step 3 is signed
ask 200 POST /ceremonies/60/steps/3/signature '{"key":"60-step-3","at":"2025-01-15T18:16:50Z"}'

# EQ opens safe 1
ask 200 POST /ceremonies/60/safes/1 '{"key":"60-safe-1","open":true,"by":"EQ","at":"2025-01-15T18:17:50Z"}'

# a bag goes into safe 1
ask 200 POST /ceremonies/60/bags/BB51184601/put '{"key":"60-put-BB51184601","to":"safe1","at":"2025-01-15T18:18:30Z"}'

# a bag goes into safe 1
ask 200 POST /ceremonies/60/bags/BB51184602/put '{"key":"60-put-BB51184602","to":"safe1","at":"2025-01-15T18:19:10Z"}'

# a bag goes into safe 1
ask 200 POST /ceremonies/60/bags/BB51184603/put '{"key":"60-put-BB51184603","to":"safe1","at":"2025-01-15T18:19:50Z"}'

# EQ shuts safe 1
ask 200 POST /ceremonies/60/safes/1 '{"key":"60-safe-2","open":false,"by":"EQ","at":"2025-01-15T18:20:30Z"}'

# step 4 is signed
ask 200 POST /ceremonies/60/steps/4/signature '{"key":"60-step-4","at":"2025-01-15T18:21:00Z"}'

# OPCARD1 comes to the facility
ask 200 POST /items '{"key":"60-OPCARD1","ceremony":60,"item":"OPCARD1","at":"2025-01-15T18:21:15Z"}'

# SOCARD1 comes to the facility
ask 200 POST /items '{"key":"60-SOCARD1","ceremony":60,"item":"SOCARD1","at":"2025-01-15T18:21:30Z"}'

# OPCARD2 comes to the facility
ask 200 POST /items '{"key":"60-OPCARD2","ceremony":60,"item":"OPCARD2","at":"2025-01-15T18:21:45Z"}'

# SOCARD2 comes to the facility
ask 200 POST /items '{"key":"60-SOCARD2","ceremony":60,"item":"SOCARD2","at":"2025-01-15T18:22:00Z"}'

# OPCARD5 comes to the facility
ask 200 POST /items '{"key":"60-OPCARD5","ceremony":60,"item":"OPCARD5","at":"2025-01-15T18:22:15Z"}'

# SOCARD5 comes to the facility
ask 200 POST /items '{"key":"60-SOCARD5","ceremony":60,"item":"SOCARD5","at":"2025-01-15T18:22:30Z"}'

# the cards of place 1 go into a bag
ask 200 POST /ceremonies/60/bags/BB51184604/seal '{"key":"60-seal-BB51184604","items":["OPCARD1","SOCARD1"],"at":"2025-01-15T18:23:50Z"}'

# the cards of place 2 go into a bag
ask 200 POST /ceremonies/60/bags/BB51184605/seal '{"key":"60-seal-BB51184605","items":["OPCARD2","SOCARD2"],"at":"2025-01-15T18:25:10Z"}'

# the cards of place 5 go into a bag
ask 200 POST /ceremonies/60/bags/BB51184606/seal '{"key":"60-seal-BB51184606","items":["OPCARD5","SOCARD5"],"at":"2025-01-15T18:26:30Z"}'

# step 5 is signed
ask 200 POST /ceremonies/60/steps/5/signature '{"key":"60-step-5","at":"2025-01-15T18:27:30Z"}'

# FM opens safe 2
ask 200 POST /ceremonies/60/safes/2 '{"key":"60-safe-3","open":true,"by":"FM","at":"2025-01-15T18:28:30Z"}'

# a bag goes into box 101
ask 200 POST /ceremonies/60/bags/BB51184604/put '{"key":"60-put-BB51184604","to":"101","at":"2025-01-15T18:29:20Z"}'

# a bag goes into box 102
ask 200 POST /ceremonies/60/bags/BB51184605/put '{"key":"60-put-BB51184605","to":"102","at":"2025-01-15T18:30:10Z"}'

# a bag goes into box 105
ask 200 POST /ceremonies/60/bags/BB51184606/put '{"key":"60-put-BB51184606","to":"105","at":"2025-01-15T18:31:00Z"}'

# FM shuts safe 2
ask 200 POST /ceremonies/60/safes/2 '{"key":"60-safe-4","open":false,"by":"FM","at":"2025-01-15T18:31:40Z"}'

# step 6 is signed
ask 200 POST /ceremonies/60/steps/6/signature '{"key":"60-step-6","at":"2025-01-15T18:32:10Z"}'

# step 7 is signed
ask 200 POST /ceremonies/60/steps/7/signature '{"key":"60-step-7","at":"2025-01-15T18:32:40Z"}'

# all go out
ask 200 POST /ceremonies/60/sheet '{"key":"60-out","way":"out","who":["AL","CD","DS","EQ","FM","JB","KV","NI"],"at":"2025-01-15T18:34:40Z"}'

# it is closed
ask 200 POST /ceremonies/60/closing '{"key":"60-closing","at":"2025-01-15T18:35:40Z"}'

# LR takes the place of NI
ask 200 POST /custodians/CO-EAST-5/replacement '{"key":"replace-CO-EAST-5","who":"LR","day":"2025-02-01"}'

# OT gives the place back
ask 200 POST /custodians/CO-EAST-3/release '{"key":"release-CO-EAST-3","day":"2025-02-01"}'

# RB is an internal witness no more
ask 200 POST /people/RB/withdrawals '{"key":"withdraw-RB-IW","role":"IW","day":"2025-02-01"}'

# the ceremony is planned by its script
ask 200 POST /ceremonies '{"key":"61-plan","number":61,"facility":"EAST","day":"2025-02-13","script":"'"$(text ceremony.csv)"'"}'

# everybody and their training
ask 200 GET /people

# who holds which place on the day
ask 200 GET /custodians/2025-02-13

# the ceremony is opened
ask 200 POST /ceremonies/61/opening '{"key":"61-opening","at":"2025-02-13T17:00:00Z"}'

# nobody is ever alone in the room: 26 lone
ask 409 POST /ceremonies/61/sheet '{"key":"61-in-1","way":"in","who":["AL"],"at":"2025-02-13T17:01:00Z"}'

# so four come in together; a refused command leaves its key free
ask 200 POST /ceremonies/61/sheet '{"key":"61-in-1","way":"in","who":["AL","CD","DS","PW"],"at":"2025-02-13T17:01:30Z"}'

# the controllers of the safes and the staff witness come in
ask 200 POST /ceremonies/61/sheet '{"key":"61-in-2","way":"in","who":["EQ","FM","HN"],"at":"2025-02-13T17:02:15Z"}'

# three Crypto Officers and a visitor come in
ask 200 POST /ceremonies/61/sheet '{"key":"61-in-3","way":"in","who":["JB","KV","LR","VS"],"at":"2025-02-13T17:04:25Z"}'

# an exception that passes over no step
ask 200 POST /ceremonies/61/exceptions '{"key":"61-exception-1","pass":false,"text":"The visitor'"'"'s badge did not open the door; DS opened it from inside","at":"2025-02-13T17:05:05Z"}'

# step 1 is signed
ask 200 POST /ceremonies/61/steps/1/signature '{"key":"61-step-1","at":"2025-02-13T17:07:45Z"}'

# step 2 is signed
ask 200 POST /ceremonies/61/steps/2/signature '{"key":"61-step-2","at":"2025-02-13T17:10:55Z"}'

# step 3 is signed
ask 200 POST /ceremonies/61/steps/3/signature '{"key":"61-step-3","at":"2025-02-13T17:12:30Z"}'

# step 4 comes before step 5: 23 order
ask 409 POST /ceremonies/61/steps/5/signature '{"key":"61-step-5","at":"2025-02-13T17:12:50Z"}'

# step 4 is signed
ask 200 POST /ceremonies/61/steps/4/signature '{"key":"61-step-4","at":"2025-02-13T17:15:20Z"}'

# step 5 is signed
ask 200 POST /ceremonies/61/steps/5/signature '{"key":"61-step-5","at":"2025-02-13T17:16:35Z"}'

# step 6 is signed
ask 200 POST /ceremonies/61/steps/6/signature '{"key":"61-step-6","at":"2025-02-13T17:18:35Z"}'

# operations comes later
ask 200 POST /ceremonies/61/sheet '{"key":"61-in-4","way":"in","who":["GT"],"at":"2025-02-13T17:19:05Z"}'

# step 7 is signed
ask 200 POST /ceremonies/61/steps/7/signature '{"key":"61-step-7","at":"2025-02-13T17:20:55Z"}'

# EQ has safe 1, not safe 2: 30 absent
ask 409 POST /ceremonies/61/safes/2 '{"key":"61-safe-1","open":true,"by":"EQ","at":"2025-02-13T17:21:35Z"}'

# FM opens safe 2
ask 200 POST /ceremonies/61/safes/2 '{"key":"61-safe-1","open":true,"by":"FM","at":"2025-02-13T17:22:00Z"}'

# step 8 is signed
ask 200 POST /ceremonies/61/steps/8/signature '{"key":"61-step-8","at":"2025-02-13T17:22:50Z"}'

# the bag of place 1 comes out
ask 200 POST /ceremonies/61/bags/BB51184604/take '{"key":"61-take-BB51184604","at":"2025-02-13T17:24:00Z"}'

# step 9 is signed
ask 200 POST /ceremonies/61/steps/9/signature '{"key":"61-step-9","at":"2025-02-13T17:24:45Z"}'

# the bag of place 2 comes out
ask 200 POST /ceremonies/61/bags/BB51184605/take '{"key":"61-take-BB51184605","at":"2025-02-13T17:25:50Z"}'

# step 10 is signed
ask 200 POST /ceremonies/61/steps/10/signature '{"key":"61-step-10","at":"2025-02-13T17:26:30Z"}'

# LR goes out for a call
ask 200 POST /ceremonies/61/sheet '{"key":"61-out-1","way":"out","who":["LR"],"at":"2025-02-13T17:26:50Z"}'

# the holder of place 5 is not in the room: 30 absent
ask 409 POST /ceremonies/61/bags/BB51184606/take '{"key":"61-take-BB51184606","at":"2025-02-13T17:27:50Z"}'

# LR comes back
ask 200 POST /ceremonies/61/sheet '{"key":"61-in-5","way":"in","who":["LR"],"at":"2025-02-13T17:33:30Z"}'

# the bag of place 5 comes out
ask 200 POST /ceremonies/61/bags/BB51184606/take '{"key":"61-take-BB51184606","at":"2025-02-13T17:34:20Z"}'

# step 11 is signed
ask 200 POST /ceremonies/61/steps/11/signature '{"key":"61-step-11","at":"2025-02-13T17:35:05Z"}'

# FM shuts safe 2
ask 200 POST /ceremonies/61/safes/2 '{"key":"61-safe-2","open":false,"by":"FM","at":"2025-02-13T17:35:50Z"}'

# step 12 is signed
ask 200 POST /ceremonies/61/steps/12/signature '{"key":"61-step-12","at":"2025-02-13T17:36:20Z"}'

# EQ opens safe 1
ask 200 POST /ceremonies/61/safes/1 '{"key":"61-safe-3","open":true,"by":"EQ","at":"2025-02-13T17:37:50Z"}'

# step 13 is signed
ask 200 POST /ceremonies/61/steps/13/signature '{"key":"61-step-13","at":"2025-02-13T17:38:30Z"}'

# the bag of the module comes out
ask 200 POST /ceremonies/61/bags/BB51184601/take '{"key":"61-take-BB51184601","at":"2025-02-13T17:39:30Z"}'

# step 14 is signed
ask 200 POST /ceremonies/61/steps/14/signature '{"key":"61-step-14","at":"2025-02-13T17:40:05Z"}'

# the bag of the laptop comes out
ask 200 POST /ceremonies/61/bags/BB51184602/take '{"key":"61-take-BB51184602","at":"2025-02-13T17:41:05Z"}'

# step 15 is signed
ask 200 POST /ceremonies/61/steps/15/signature '{"key":"61-step-15","at":"2025-02-13T17:41:40Z"}'

# the bag of the medium comes out
ask 200 POST /ceremonies/61/bags/BB51184603/take '{"key":"61-take-BB51184603","at":"2025-02-13T17:42:40Z"}'

# step 16 is signed
ask 200 POST /ceremonies/61/steps/16/signature '{"key":"61-step-16","at":"2025-02-13T17:43:15Z"}'

# EQ shuts safe 1
ask 200 POST /ceremonies/61/safes/1 '{"key":"61-safe-4","open":false,"by":"EQ","at":"2025-02-13T17:44:10Z"}'

# step 17 is signed
ask 200 POST /ceremonies/61/steps/17/signature '{"key":"61-step-17","at":"2025-02-13T17:44:40Z"}'

# step 18 is signed
ask 200 POST /ceremonies/61/steps/18/signature '{"key":"61-step-18","at":"2025-02-13T17:49:00Z"}'

# the controllers of the safes go out
ask 200 POST /ceremonies/61/sheet '{"key":"61-out-2","way":"out","who":["EQ","FM"],"at":"2025-02-13T17:50:00Z"}'

# the bag of the laptop is cut
ask 200 POST /ceremonies/61/bags/BB51184602/cut '{"key":"61-cut-BB51184602","at":"2025-02-13T17:52:00Z"}'

# the bag of the medium is cut
ask 200 POST /ceremonies/61/bags/BB51184603/cut '{"key":"61-cut-BB51184603","at":"2025-02-13T17:52:40Z"}'

# step 19 is signed
ask 200 POST /ceremonies/61/steps/19/signature '{"key":"61-step-19","at":"2025-02-13T17:53:30Z"}'

# step 20 is signed
ask 200 POST /ceremonies/61/steps/20/signature '{"key":"61-step-20","at":"2025-02-13T17:58:40Z"}'

# step 21 is signed
ask 200 POST /ceremonies/61/steps/21/signature '{"key":"61-step-21","at":"2025-02-13T18:05:40Z"}'

# step 22 is signed
ask 200 POST /ceremonies/61/steps/22/signature '{"key":"61-step-22","at":"2025-02-13T18:07:10Z"}'

# an exception that passes over step 23
ask 200 POST /ceremonies/61/exceptions '{"key":"61-exception-2","pass":true,"text":"PRINTER2 draws no paper; logs are copied to the medium, and nothing is printed today","at":"2025-02-13T18:13:50Z"}'

# step 24 is signed
ask 200 POST /ceremonies/61/steps/24/signature '{"key":"61-step-24","at":"2025-02-13T18:15:30Z"}'

# the bag of the module is cut
ask 200 POST /ceremonies/61/bags/BB51184601/cut '{"key":"61-cut-BB51184601","at":"2025-02-13T18:16:50Z"}'

# step 25 is signed
ask 200 POST /ceremonies/61/steps/25/signature '{"key":"61-step-25","at":"2025-02-13T18:17:50Z"}'

# step 26 is signed
ask 200 POST /ceremonies/61/steps/26/signature '{"key":"61-step-26","at":"2025-02-13T18:21:10Z"}'

# step 27 is signed
ask 200 POST /ceremonies/61/steps/27/signature '{"key":"61-step-27","at":"2025-02-13T18:23:00Z"}'

# the bag of place 1 is cut
ask 200 POST /ceremonies/61/bags/BB51184604/cut '{"key":"61-cut-BB51184604","at":"2025-02-13T18:24:00Z"}'

# step 28 is signed
ask 200 POST /ceremonies/61/steps/28/signature '{"key":"61-step-28","at":"2025-02-13T18:24:40Z"}'

# the bag of place 2 is cut
ask 200 POST /ceremonies/61/bags/BB51184605/cut '{"key":"61-cut-BB51184605","at":"2025-02-13T18:25:40Z"}'

# step 29 is signed
ask 200 POST /ceremonies/61/steps/29/signature '{"key":"61-step-29","at":"2025-02-13T18:26:20Z"}'

# the bag of place 5 is cut
ask 200 POST /ceremonies/61/bags/BB51184606/cut '{"key":"61-cut-BB51184606","at":"2025-02-13T18:27:20Z"}'

# step 30 is signed
ask 200 POST /ceremonies/61/steps/30/signature '{"key":"61-step-30","at":"2025-02-13T18:28:00Z"}'

# KV goes out
ask 200 POST /ceremonies/61/sheet '{"key":"61-out-3","way":"out","who":["KV"],"at":"2025-02-13T18:28:40Z"}'

# three seats, and two Crypto Officers in the room: 32 short
ask 409 POST /ceremonies/61/steps/31/signature '{"key":"61-step-31","at":"2025-02-13T18:29:40Z"}'

# KV comes back
ask 200 POST /ceremonies/61/sheet '{"key":"61-in-6","way":"in","who":["KV"],"at":"2025-02-13T18:37:40Z"}'

# step 31 is signed
ask 200 POST /ceremonies/61/steps/31/signature '{"key":"61-step-31","at":"2025-02-13T18:41:00Z"}'

# the same command again: the same answer, and nothing changes
ask 200 POST /ceremonies/61/steps/31/signature '{"key":"61-step-31","at":"2025-02-13T18:41:00Z"}'

# another command under a key that is taken: 11 key
ask 409 POST /ceremonies/61/steps/31/signature '{"key":"61-step-31","at":"2025-02-13T18:41:30Z"}'

# step 32 is signed
ask 200 POST /ceremonies/61/steps/32/signature '{"key":"61-step-32","at":"2025-02-13T18:42:40Z"}'

# step 33 is signed
ask 200 POST /ceremonies/61/steps/33/signature '{"key":"61-step-33","at":"2025-02-13T18:48:10Z"}'

# step 34 is signed
ask 200 POST /ceremonies/61/steps/34/signature '{"key":"61-step-34","at":"2025-02-13T18:52:50Z"}'

# step 35 is signed
ask 200 POST /ceremonies/61/steps/35/signature '{"key":"61-step-35","at":"2025-02-13T18:55:20Z"}'

# the staff witness goes out
ask 200 POST /ceremonies/61/sheet '{"key":"61-out-4","way":"out","who":["HN"],"at":"2025-02-13T18:56:05Z"}'

# step 36 is signed
ask 200 POST /ceremonies/61/steps/36/signature '{"key":"61-step-36","at":"2025-02-13T18:58:25Z"}'

# who is in the room at a moment
ask 200 GET /ceremonies/61/room/2025-02-13T19:00:00Z

# the medium with the response is one more thing to keep
ask 200 POST /items '{"key":"61-RESPONSE61","ceremony":61,"item":"RESPONSE61","at":"2025-02-13T18:59:25Z"}'

# step 37 is signed
ask 200 POST /ceremonies/61/steps/37/signature '{"key":"61-step-37","at":"2025-02-13T19:03:25Z"}'

# step 38 is signed
ask 200 POST /ceremonies/61/steps/38/signature '{"key":"61-step-38","at":"2025-02-13T19:04:25Z"}'

# operations and the visitor go out
ask 200 POST /ceremonies/61/sheet '{"key":"61-out-5","way":"out","who":["GT","VS"],"at":"2025-02-13T19:05:55Z"}'

# the Ceremony Administrator goes out, and the deputy goes on
ask 200 POST /ceremonies/61/sheet '{"key":"61-out-6","way":"out","who":["AL"],"at":"2025-02-13T19:07:55Z"}'

# step 39 is signed
ask 200 POST /ceremonies/61/steps/39/signature '{"key":"61-step-39","at":"2025-02-13T19:11:05Z"}'

# step 40 is signed
ask 200 POST /ceremonies/61/steps/40/signature '{"key":"61-step-40","at":"2025-02-13T19:12:25Z"}'

# both come back
ask 200 POST /ceremonies/61/sheet '{"key":"61-in-7","way":"in","who":["AL","HN"],"at":"2025-02-13T19:13:25Z"}'

# the module goes into a new bag
ask 200 POST /ceremonies/61/bags/BB51184611/seal '{"key":"61-seal-BB51184611","items":["HSM7"],"at":"2025-02-13T19:15:25Z"}'

# step 41 is signed
ask 200 POST /ceremonies/61/steps/41/signature '{"key":"61-step-41","at":"2025-02-13T19:16:05Z"}'

# the laptop goes into a new bag
ask 200 POST /ceremonies/61/bags/BB51184612/seal '{"key":"61-seal-BB51184612","items":["LAPTOP4"],"at":"2025-02-13T19:18:35Z"}'

# step 42 is signed
ask 200 POST /ceremonies/61/steps/42/signature '{"key":"61-step-42","at":"2025-02-13T19:19:15Z"}'

# the media go into a new bag
ask 200 POST /ceremonies/61/bags/BB51184613/seal '{"key":"61-seal-BB51184613","items":["MEDIUM12","RESPONSE61"],"at":"2025-02-13T19:20:45Z"}'

# step 43 is signed
ask 200 POST /ceremonies/61/steps/43/signature '{"key":"61-step-43","at":"2025-02-13T19:21:25Z"}'

# the cards of place 1 go into a new bag
ask 200 POST /ceremonies/61/bags/BB51184614/seal '{"key":"61-seal-BB51184614","items":["OPCARD1","SOCARD1"],"at":"2025-02-13T19:22:45Z"}'

# step 44 is signed
ask 200 POST /ceremonies/61/steps/44/signature '{"key":"61-step-44","at":"2025-02-13T19:23:25Z"}'

# the cards of place 2 go into a new bag
ask 200 POST /ceremonies/61/bags/BB51184615/seal '{"key":"61-seal-BB51184615","items":["OPCARD2","SOCARD2"],"at":"2025-02-13T19:24:45Z"}'

# its seam has torn, so it is cut again
ask 200 POST /ceremonies/61/bags/BB51184615/cut '{"key":"61-cut-BB51184615","at":"2025-02-13T19:25:45Z"}'

# a serial is used once: 13 taken
ask 409 POST /ceremonies/61/bags/BB51184615/seal '{"key":"61-seal-BB51184615-again","items":["OPCARD2","SOCARD2"],"at":"2025-02-13T19:26:15Z"}'

# the cards of place 2 go into the next bag
ask 200 POST /ceremonies/61/bags/BB51184617/seal '{"key":"61-seal-BB51184617","items":["OPCARD2","SOCARD2"],"at":"2025-02-13T19:27:15Z"}'

# an exception that passes over no step
ask 200 POST /ceremonies/61/exceptions '{"key":"61-exception-3","pass":false,"text":"The seam of bag BB51184615 tore; the cards went into bag BB51184617","at":"2025-02-13T19:27:55Z"}'

# step 45 is signed
ask 200 POST /ceremonies/61/steps/45/signature '{"key":"61-step-45","at":"2025-02-13T19:28:40Z"}'

# the cards of place 5 go into a new bag
ask 200 POST /ceremonies/61/bags/BB51184616/seal '{"key":"61-seal-BB51184616","items":["OPCARD5","SOCARD5"],"at":"2025-02-13T19:30:00Z"}'

# step 46 is signed
ask 200 POST /ceremonies/61/steps/46/signature '{"key":"61-step-46","at":"2025-02-13T19:30:40Z"}'

# step 47 is signed
ask 200 POST /ceremonies/61/steps/47/signature '{"key":"61-step-47","at":"2025-02-13T19:33:40Z"}'

# safe 1 is shut: 28 safe
ask 409 POST /ceremonies/61/bags/BB51184611/put '{"key":"61-put-BB51184611","to":"safe1","at":"2025-02-13T19:34:10Z"}'

# the controllers of the safes come back
ask 200 POST /ceremonies/61/sheet '{"key":"61-in-8","way":"in","who":["EQ","FM"],"at":"2025-02-13T19:35:10Z"}'

# EQ opens safe 1
ask 200 POST /ceremonies/61/safes/1 '{"key":"61-safe-5","open":true,"by":"EQ","at":"2025-02-13T19:36:40Z"}'

# step 48 is signed
ask 200 POST /ceremonies/61/steps/48/signature '{"key":"61-step-48","at":"2025-02-13T19:37:20Z"}'

# the bag of the module goes into safe 1
ask 200 POST /ceremonies/61/bags/BB51184611/put '{"key":"61-put-BB51184611","to":"safe1","at":"2025-02-13T19:38:10Z"}'

# step 49 is signed
ask 200 POST /ceremonies/61/steps/49/signature '{"key":"61-step-49","at":"2025-02-13T19:38:40Z"}'

# the bag of the laptop goes into safe 1
ask 200 POST /ceremonies/61/bags/BB51184612/put '{"key":"61-put-BB51184612","to":"safe1","at":"2025-02-13T19:39:30Z"}'

# step 50 is signed
ask 200 POST /ceremonies/61/steps/50/signature '{"key":"61-step-50","at":"2025-02-13T19:40:00Z"}'

# the bag of the media goes into safe 1
ask 200 POST /ceremonies/61/bags/BB51184613/put '{"key":"61-put-BB51184613","to":"safe1","at":"2025-02-13T19:40:50Z"}'

# step 51 is signed
ask 200 POST /ceremonies/61/steps/51/signature '{"key":"61-step-51","at":"2025-02-13T19:41:20Z"}'

# EQ shuts safe 1
ask 200 POST /ceremonies/61/safes/1 '{"key":"61-safe-6","open":false,"by":"EQ","at":"2025-02-13T19:42:05Z"}'

# step 52 is signed
ask 200 POST /ceremonies/61/steps/52/signature '{"key":"61-step-52","at":"2025-02-13T19:42:35Z"}'

# FM opens safe 2
ask 200 POST /ceremonies/61/safes/2 '{"key":"61-safe-7","open":true,"by":"FM","at":"2025-02-13T19:43:55Z"}'

# step 53 is signed
ask 200 POST /ceremonies/61/steps/53/signature '{"key":"61-step-53","at":"2025-02-13T19:44:35Z"}'

# the bag of place 1 goes into its box
ask 200 POST /ceremonies/61/bags/BB51184614/put '{"key":"61-put-BB51184614","to":"101","at":"2025-02-13T19:45:30Z"}'

# step 54 is signed
ask 200 POST /ceremonies/61/steps/54/signature '{"key":"61-step-54","at":"2025-02-13T19:46:00Z"}'

# the bag of place 2 goes into its box
ask 200 POST /ceremonies/61/bags/BB51184617/put '{"key":"61-put-BB51184617","to":"102","at":"2025-02-13T19:46:55Z"}'

# step 55 is signed
ask 200 POST /ceremonies/61/steps/55/signature '{"key":"61-step-55","at":"2025-02-13T19:47:25Z"}'

# the bag of place 5 goes into its box
ask 200 POST /ceremonies/61/bags/BB51184616/put '{"key":"61-put-BB51184616","to":"105","at":"2025-02-13T19:48:20Z"}'

# step 56 is signed
ask 200 POST /ceremonies/61/steps/56/signature '{"key":"61-step-56","at":"2025-02-13T19:48:50Z"}'

# FM shuts safe 2
ask 200 POST /ceremonies/61/safes/2 '{"key":"61-safe-8","open":false,"by":"FM","at":"2025-02-13T19:49:35Z"}'

# step 57 is signed
ask 200 POST /ceremonies/61/steps/57/signature '{"key":"61-step-57","at":"2025-02-13T19:50:05Z"}'

# step 58 is signed
ask 200 POST /ceremonies/61/steps/58/signature '{"key":"61-step-58","at":"2025-02-13T19:55:05Z"}'

# step 59 is signed
ask 200 POST /ceremonies/61/steps/59/signature '{"key":"61-step-59","at":"2025-02-13T19:59:05Z"}'

# step 60 is signed
ask 200 POST /ceremonies/61/steps/60/signature '{"key":"61-step-60","at":"2025-02-13T20:02:25Z"}'

# step 61 is signed
ask 200 POST /ceremonies/61/steps/61/signature '{"key":"61-step-61","at":"2025-02-13T20:03:55Z"}'

# somebody is still in the room: 31 unfinished
ask 409 POST /ceremonies/61/closing '{"key":"61-closing","at":"2025-02-13T20:04:25Z"}'

# PW would be left alone: 26 lone
ask 409 POST /ceremonies/61/sheet '{"key":"61-out-7","way":"out","who":["AL","CD","DS","EQ","FM","HN","JB","KV","LR"],"at":"2025-02-13T20:05:25Z"}'

# so all go out together
ask 200 POST /ceremonies/61/sheet '{"key":"61-out-7","way":"out","who":["AL","CD","DS","EQ","FM","HN","JB","KV","LR","PW"],"at":"2025-02-13T20:06:25Z"}'

# the ceremony is closed
ask 200 POST /ceremonies/61/closing '{"key":"61-closing","at":"2025-02-13T20:08:25Z"}'

# nobody comes in after the closing: 20 state
ask 409 POST /ceremonies/61/sheet '{"key":"61-in-9","way":"in","who":["AL","PW"],"at":"2025-02-13T20:09:25Z"}'

# places are settled up to the day of the ceremony: 18 settled
ask 409 POST /custodians '{"key":"appoint-CO-EAST-4","place":"CO-EAST-4","who":"NI","day":"2025-02-13"}'

# the day after it NI may hold a place
ask 200 POST /custodians '{"key":"appoint-CO-EAST-4","place":"CO-EAST-4","who":"NI","day":"2025-02-14"}'

# where a bag is, and what is in it
ask 200 GET /bags/BB51184613

# and where the torn one is
ask 200 GET /bags/BB51184615

# the annotated script
keep /ceremonies/61/script ceremony.script.txt

# the attendance
keep /ceremonies/61/attendance.csv ceremony.attendance.csv
