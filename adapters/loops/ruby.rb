# Evaluates lines for prompted.py: one in double quotes is a statement, with \n for its line ends, another one the halves of a marker.
Object.new.instance_eval do
  commands = $stdin.dup
  commands.set_encoding('UTF-8')
  $stdin.reopen(File::NULL)
  $stdout.sync = true
  own, fault, place = $stdout.dup, ENV['TMHOST_ERROR'], TOPLEVEL_BINDING
  own.sync = true
  Signal.trap('INT') { Thread.main.raise(Interrupt, 'interrupted') if @works }
  answer = lambda do |text|
    @works = true
    value = place.eval(text, 'line', 1)
    @works = false
    place.local_variable_set(:_, value)
    puts "=> #{value.inspect}" unless text.strip.empty?
  rescue SystemExit
    raise
  rescue Exception => error
    @works = false
    at = error.backtrace.to_a.select { |one| one.start_with?('line:') }
    own.puts "#{fault}#{at.first}#{': ' if at.first}#{error.message} (#{error.class})"
    at.drop(1).each { |one| own.puts "\tfrom #{one}" }
  end
  while (line = commands.gets)
    line = line.chomp
    if line.start_with?('"')
      answer.call(line[1...-1].gsub(/\\(.)/) { $1 == 'n' ? "\n" : $1 })
    else
      own.puts line.sub(' ', '')
    end
  end
end
