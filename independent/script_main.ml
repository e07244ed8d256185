(* Prints the transcript of the script on standard input, as `arbiter run` does. It reads line by
   line (ByLine.v says that these are the lines of the whole text), and keeps the state alone. *)
open Script

let version = "1.0.0"

let help = "Usage: arbiter-script [--processors N] [--period US] [--slice US] < SCRIPT\n\n\
  Answers the lines of a script as `arbiter run` does. It was extracted from proofs in Coq.\n\n\
  Options:\n\
  \      --processors N  Processors of the host, 1 to 64 [default: 1]\n\
  \      --period US     Microseconds of a period, 1000 to 1000000 [default: 100000]\n\
  \      --slice US      Microseconds of a slice, a part of the period, from 1000 on\n\
  \                      [default: 5000]\n\
  \  -h, --help          Print help\n\
  \  -V, --version       Print version\n\n\
  Exit status: 0 if all lines were answered, 1 if a stream failed or memory ran out, 2 for other\n\
  words.\n"

let fail status text =
  prerr_endline ("arbiter-script: " ^ text);
  exit status

(* A number in its one spelling, within a range. *)
let number option text low high =
  match int_of_string_opt text with
  | Some n when low <= n && n <= high && string_of_int n = text -> n
  | _ -> fail 2 (Printf.sprintf "%s: '%s' is no number from %d to %d" option (String.escaped text) low high)

type host = { processors : int; period : int; slice : int }

let rec host_of host = function
  | "--processors" :: text :: words ->
    host_of { host with processors = number "--processors" text 1 64 } words
  | "--period" :: text :: words ->
    host_of { host with period = number "--period" text 1000 1_000_000 } words
  | "--slice" :: text :: words ->
    host_of { host with slice = number "--slice" text 1000 1_000_000 } words
  | [] ->
    if host.slice > host.period || host.period mod host.slice <> 0 then
      fail 2 "--slice: a period has a whole number of slices";
    host
  | word :: _ -> fail 2 ("unknown argument '" ^ String.escaped word ^ "'; --help says more")

let bytes_of line = List.init (String.length line) (fun at -> Z.of_int (Char.code line.[at]))

let print bytes =
  let buffer = Buffer.create 4096 in
  List.iter (fun byte -> Buffer.add_char buffer (Char.chr (Z.to_int byte))) bytes;
  print_string (Buffer.contents buffer)

(* Each answer is out before the next line is read. *)
let rec answer state =
  match input_line stdin with
  | exception End_of_file -> ()
  | line -> (
    match answer_of state (bytes_of line) with
    | Some (text, state) ->
      print text;
      flush stdout;
      answer state
    (* Always.v: each line of each host has an answer *)
    | None -> fail 4 "no answer")

let () =
  set_binary_mode_in stdin true;
  set_binary_mode_out stdout true;
  match List.tl (Array.to_list Sys.argv) with
  | [ "--help" ] | [ "-h" ] -> print_string help
  | [ "--version" ] | [ "-V" ] -> print_endline ("arbiter-script " ^ version)
  | words -> (
    let host = host_of { processors = 1; period = 100_000; slice = 5_000 } words in
    let whole = Z.of_int in
    try answer (first_state (whole host.processors) (whole host.period) (whole host.slice)) with
    | Sys_error why -> fail 1 why
    | Out_of_memory | Stack_overflow -> fail 1 "out of memory")
