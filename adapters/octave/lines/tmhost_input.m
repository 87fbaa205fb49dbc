% Opens the standard input for the lines that the session is sent, and closes it while one of them is evaluated. Of one that isn't done there
% is an error, before which a mark stands.
function tmhost_input (state)
  persistent is_done = true;
  name = "/dev/null";
  if (strcmp (state, "of a line"))
    is_done = false;
  elseif (strcmp (state, "done"))
    is_done = true;
    return;
  else
    if (! is_done)
      fflush (stdout);
      fputs (stderr, getenv ("TMHOST_ERROR"));
      fflush (stderr);
    end
    name = getenv ("TMHOST_COMMANDS");
  end
  file = fopen (name);
  dup2 (file, stdin);
  fclose (file);
end
