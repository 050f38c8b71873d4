# A worker of Sidekiq; as a program it adds so many jobs.
require "sidekiq"
class Work
  include Sidekiq::Worker
  DONE = File.open(ENV["DONE"], File::WRONLY | File::APPEND)
  def perform(number)
    sleep 0.002
    DONE.syswrite("#{number}\n")
    sleep 0.002
  end
end
Sidekiq::Client.push_bulk("class" => Work, "args" => (1..ARGV[0].to_i).map { |n| [n] }) if $0 == __FILE__
