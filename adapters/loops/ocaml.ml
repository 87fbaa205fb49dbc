(* Evaluates lines for prompted.py, which come by 3: one in double quotes has phrases, with \n for its line ends, another one the halves of a
   marker. This text itself is the input of the interpreter, so that what a line reads is empty. *)
#load "unix.cma";;
#load "str.cma";;
let tmhost_loop () =
  let commands = Unix.in_channel_of_descr (Obj.magic 3 : Unix.file_descr) and own = Unix.out_channel_of_descr (Unix.dup Unix.stdout) in
  let file = Filename.temp_file "tmhost" ".ml" in
  at_exit (fun () -> try Sys.remove file with Sys_error _ -> ());
  let of_file = Str.regexp ("File \"" ^ Str.quote file ^ "\", ") in
  let answer text =
    let written = open_out file in
    output_string written (text ^ "\n;;"); close_out written;
    let said = Buffer.create 80 in
    let out = Format.formatter_of_buffer said in
    let is_good = try Toploop.use_file out file with Sys.Break -> Format.fprintf out "Interrupted.@."; false in
    Format.pp_print_flush out (); Format.print_flush (); flush_all ();
    let said = String.trim (Str.global_replace of_file "" (Buffer.contents said)) in
    if said <> "" then Printf.fprintf own "%s%s\n%!" (if is_good then "" else Sys.getenv "TMHOST_ERROR") said in
  let unescaped text =
    let plain = Buffer.create 80 in
    let rec loop at = if at < String.length text then
      if text.[at] = '\\' && at + 1 < String.length text
      then (Buffer.add_char plain (if text.[at + 1] = 'n' then '\n' else text.[at + 1]); loop (at + 2))
      else (Buffer.add_char plain text.[at]; loop (at + 1)) in
    loop 0; Buffer.contents plain in
  let line_of text =
    if String.length text > 1 && text.[0] = '"' then begin
      Sys.catch_break true;
      (try answer (unescaped (String.sub text 1 (String.length text - 2))) with Sys.Break -> ());
      Sys.set_signal Sys.sigint Sys.Signal_ignore
    end else (flush_all (); Printf.fprintf own "%s\n%!" (String.concat "" (String.split_on_char ' ' text))) in
  Sys.set_signal Sys.sigint Sys.Signal_ignore;
  try while true do line_of (input_line commands) done with End_of_file -> exit 0;;
tmhost_loop ();;
