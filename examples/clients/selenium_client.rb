#!/usr/bin/env ruby
# Drives `bidi serve` by the BiDi class of selenium-webdriver: selenium_client.rb [PORT]
#
# With one more word, `host`, it drives `bidi host`: a connection of the page sets what the script gives, and logs an entry.
require 'selenium-webdriver'

# A connection of the page, by the frames that selenium-webdriver stands on.
class Page
  def initialize(port)
    @socket = TCPSocket.new('127.0.0.1', port)
    head = WebSocket::Handshake::Client.new(url: "ws://127.0.0.1:#{port}/page")
    @socket.write(head.to_s)
    head << @socket.readpartial(1024) until head.finished?
    @version = head.version
    @answers = WebSocket::Frame::Incoming::Client.new(version: @version)
  end

  # The answer to a line of the page.
  def tell(line)
    @socket.write(WebSocket::Frame::Outgoing::Client.new(version: @version, data: line, type: 'text').to_s)
    until (answer = @answers.next)
      @answers << @socket.readpartial(1024)
    end
    answer.to_s
  end
end

port = (ARGV[0] || 9222).to_i
page = Page.new(port) if ARGV.include?('host')
bidi = Selenium::WebDriver::BiDi.new(url: "ws://127.0.0.1:#{port}/session")
events = []
%w[contextCreated navigationStarted domContentLoaded load].each do |name|
  bidi.callbacks["browsingContext.#{name}"] << ->(_) { events << name }
end
bidi.callbacks['log.entryAdded'] << ->(entry) { events << "log(#{entry['text']})" }

session = bidi.send_cmd('session.new', capabilities: {})
puts "session #{session['sessionId']}"
bidi.send_cmd('session.subscribe', events: page ? %w[browsingContext log] : ['browsingContext'])
context = bidi.send_cmd('browsingContext.create', type: 'tab')['context']
there = bidi.send_cmd('browsingContext.navigate', context: context, url: 'http://a.test', wait: 'complete')
puts "at #{there['url']}"
if page
  puts "value #{page.tell('value {"text":"1 + 1","returns":{"type":"number","value":2}}')}"
  puts "log #{page.tell("log #{context} warn the page is slow")}"
end
begin
  answer = bidi.send_cmd('script.evaluate', expression: '1 + 1', target: { context: context }, awaitPromise: false)
  puts "evaluate #{answer['result']['value']}"
rescue Selenium::WebDriver::Error::WebDriverError => e
  puts "evaluate #{e.message}"
end
bidi.send_cmd('session.end')
sleep 0.1
puts "events #{events.sort.join(' ')}"
