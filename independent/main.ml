(* Prints the verdict on certified texts in the words of `arbiter check`: of standard input, or of
   each file that is named, one line for each. *)
open Checker

let version = "1.0.0"

let names = function
  | WrongLength -> "50 WrongLength"
  | OverLimit -> "51 OverLimit"
  | OverDemand -> "52 OverDemand"
  | SumDiffers -> "53 SumDiffers"
  | FlagWithoutLimit -> "54 FlagWithoutLimit"
  | NotGreatest -> "55 NotGreatest"
  | LevelMissing -> "56 LevelMissing"
  | LastMarkAbove -> "57 LastMarkAbove"
  | NextMarkNotAbove -> "58 NextMarkNotAbove"

let errors =
  [ 1, "BadProcessors"; 2, "BadPeriod"; 3, "BadSlice"; 4, "TooMany"; 5, "BadParent";
    6, "BadWeight"; 7, "TooDeep"; 8, "InnerDemand"; 9, "DemandTooLarge"; 10, "RootLimited";
    40, "BadLine"; 41, "BadField"; 42, "CutShort"; 43, "Trailing" ]

(* A text above this is a fault of reading, as in `arbiter check`. *)
let most_bytes = 4 * 1024 * 1024

exception Too_long

let bytes_of channel =
  let buffer = Buffer.create 65536 in
  (try
     while Buffer.length buffer <= most_bytes do
       Buffer.add_channel buffer channel 1
     done
   with End_of_file -> ());
  if Buffer.length buffer > most_bytes then raise Too_long;
  List.init (Buffer.length buffer) (fun at -> Z.of_int (Char.code (Buffer.nth buffer at)))

(* The line for a text, and whether it is accepted. *)
let line_of text =
  match verdict_of text with
  | Accepted -> "accepted", true
  | Refused (fault, row) -> Printf.sprintf "refused %s %s" (names fault) (Z.to_string row), false
  | Error ->
    let number = Z.to_int (error_of text) in
    Printf.sprintf "error %d %s" number (List.assoc number errors), false

let answer channel =
  set_binary_mode_in channel true;
  let line, is_accepted = line_of (bytes_of channel) in
  print_endline line;
  is_accepted

let of_file name =
  let channel = open_in_bin name in
  Fun.protect ~finally:(fun () -> close_in channel) (fun () -> answer channel)

let help = "Usage: arbiter-check [FILE..]\n\n\
  Checks certified texts: standard input, or each file. For each it prints `accepted`,\n\
  `refused N NAME ROW` or `error N NAME`, as `arbiter check` does.\n\n\
  Exit status: 0 if all are accepted, 3 if one is not, 1 if one cannot be read, 2 for other words.\n"

let fail status text =
  prerr_endline ("arbiter-check: " ^ text);
  exit status

let () =
  match List.tl (Array.to_list Sys.argv) with
  | [ "--help" ] | [ "-h" ] -> print_string help
  | [ "--version" ] | [ "-V" ] -> print_endline ("arbiter-check " ^ version)
  | word :: _ when String.length word > 1 && word.[0] = '-' ->
    fail 2 ("unknown argument '" ^ String.escaped word ^ "'; --help says more")
  | files -> (
    try
      let all = if files = [] then [ answer stdin ] else List.map of_file files in
      exit (if List.for_all Fun.id all then 0 else 3)
    with
    | Sys_error why -> fail 1 why
    | Too_long -> fail 1 "a text above 4 MiB"
    | Out_of_memory | Stack_overflow -> fail 1 "out of memory")
