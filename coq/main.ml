(* pert-recheck: gives the checker the bytes of the deck, then those of the certificate, and prints
   what it says. This file and the maps of Extract.v are not proved. *)
open Recheck

(* Feeds all bytes of a file, or stops early where further bytes change nothing. *)
let feed_all feed start file =
  let chunk = Bytes.create 65536 in
  let rec from state =
    match state with
    | Stopped _ -> state
    | Reading _ ->
        let count = Unix.read file chunk 0 (Bytes.length chunk) in
        let now = ref state in
        for i = 0 to count - 1 do now := feed !now (Bytes.get chunk i) done;
        if count = 0 then state else from !now
  in
  from start

(* Where to print, what, and the status *)
let answer name =
  let refused reason = Unix.stderr, "pert-recheck: " ^ name ^ ": " ^ reason, 1 in
  let text = Big_int_Z.string_of_big_int in
  ignore (Unix.fstat Unix.stdin); (* fails if it is closed, so that the deck does not take its place *)
  match deck_end (feed_all deck_feed deck_start (Unix.openfile name [Unix.O_RDONLY] 0)) with
  | Inr line when text line = "0" -> refused "the cards make no project"
  | Inr line -> refused ("line " ^ text line ^ " is no card as pert migrate writes it")
  | Inl project ->
      match verdict (feed_all (cert_feed (prepare project)) cert_start Unix.stdin) with
      | Certified segments -> Unix.stdout, "certified " ^ text segments, 0
      | NotCertified (line, reason) ->
          Unix.stdout, "not certified line " ^ text line ^ " reason " ^ text reason, 6

let print (file, line, status) =
  let text = line ^ "\n" in
  match Unix.write_substring file text 0 (String.length text) with
  | _ -> status
  | exception Unix.Unix_error _ -> 5

let () =
  Sys.set_signal Sys.sigpipe Sys.Signal_ignore;
  exit (match Sys.argv with
    | [| _; name |] ->
        (match answer name with
         | line -> print line
         | exception (Out_of_memory | Stack_overflow) -> 3
         | exception Unix.Unix_error _ -> 4)
    | _ -> print (Unix.stderr, "usage: pert-recheck DECK < CERTIFICATE", 2))
