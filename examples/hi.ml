let () = print_string "hi\n"
