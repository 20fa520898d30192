" Syntax of gbus scripts, made by tools/syntax from tools/forms.txt.
if exists('b:current_syntax')
  finish
endif
syntax match gbusError /\v^.*[^ \r].*$/
syntax match gbusLine /\v^ *%(boot) *\r{0,1}$/ contains=@gbusWord
syntax match gbusLine /\v^ *%(insert) +%([2-9]|[12][0-9]|3[01]) +%(gpio|i2c|spi|uart|bridge|loopback|firmware)%( +%(gpio|i2c|spi|uart|bridge|loopback|firmware)){0,1}%( +%(gpio|i2c|spi|uart|bridge|loopback|firmware)){0,1}%( +%(gpio|i2c|spi|uart|bridge|loopback|firmware)){0,1} *\r{0,1}$/ contains=@gbusWord
syntax match gbusLine /\v^ *%(insert) +%([2-9]|[12][0-9]|3[01]) +%(raw) +%(-|%([0-9A-Fa-f]{2})+) *\r{0,1}$/ contains=@gbusWord
syntax match gbusLine /\v^ *%(pull) +%([2-9]|[12][0-9]|3[01]) *\r{0,1}$/ contains=@gbusWord
syntax match gbusLine /\v^ *%(connect) +%([2-9]|[12][0-9]|3[01]) +%(0|[1-9][0-9]{0,2}|[1-3][0-9]{3}|40[0-8][0-9]|409[0-5]) *\r{0,1}$/ contains=@gbusWord
syntax match gbusLine /\v^ *%(disconnect) +%([2-9]|[12][0-9]|3[01]) +%(0|[1-9][0-9]{0,2}|[1-3][0-9]{3}|40[0-8][0-9]|409[0-5])%( +%(drain)){0,1} *\r{0,1}$/ contains=@gbusWord
syntax match gbusLine /\v^ *%(send) +%([@][a-z0-9]{1,16}) +%(svc) +%(ping)%( +%(timeout) +%([1-9][0-9]{0,9})){0,1} *\r{0,1}$/ contains=@gbusWord
syntax match gbusLine /\v^ *%(send) +%([@][a-z0-9]{1,16}) +%(svc) +%([0-7][0-9A-Fa-f]) +%(-|%([0-9A-Fa-f]{2})+)%( +%(timeout) +%([1-9][0-9]{0,9})){0,1} *\r{0,1}$/ contains=@gbusWord
syntax match gbusLine /\v^ *%(send) +%([@][a-z0-9]{1,16}) +%([2-9]|[12][0-9]|3[01]) +%(0|[1-9][0-9]{0,2}|[1-3][0-9]{3}|40[0-8][0-9]|409[0-5]) +%([0-7][0-9A-Fa-f]) +%(-|%([0-9A-Fa-f]{2})+)%( +%(timeout) +%([1-9][0-9]{0,9})){0,1} *\r{0,1}$/ contains=@gbusWord
syntax match gbusLine /\v^ *%(gpio) +%([@][a-z0-9]{1,16}) +%([2-9]|[12][0-9]|3[01]) +%(0|[1-9][0-9]{0,2}|[1-3][0-9]{3}|40[0-8][0-9]|409[0-5]) +%(count) *\r{0,1}$/ contains=@gbusWord
syntax match gbusLine /\v^ *%(gpio) +%([@][a-z0-9]{1,16}) +%([2-9]|[12][0-9]|3[01]) +%(0|[1-9][0-9]{0,2}|[1-3][0-9]{3}|40[0-8][0-9]|409[0-5]) +%(activate|deactivate|direction|in|get|mask|unmask) +%(0|[1-9][0-9]{0,1}|1[0-9]{2}|2[0-4][0-9]|25[0-5]) *\r{0,1}$/ contains=@gbusWord
syntax match gbusLine /\v^ *%(gpio) +%([@][a-z0-9]{1,16}) +%([2-9]|[12][0-9]|3[01]) +%(0|[1-9][0-9]{0,2}|[1-3][0-9]{3}|40[0-8][0-9]|409[0-5]) +%(out|set|irq) +%(0|[1-9][0-9]{0,1}|1[0-9]{2}|2[0-4][0-9]|25[0-5]) +%(0|[1-9][0-9]{0,1}|1[0-9]{2}|2[0-4][0-9]|25[0-5]) *\r{0,1}$/ contains=@gbusWord
syntax match gbusLine /\v^ *%(gpio) +%([@][a-z0-9]{1,16}) +%([2-9]|[12][0-9]|3[01]) +%(0|[1-9][0-9]{0,2}|[1-3][0-9]{3}|40[0-8][0-9]|409[0-5]) +%(debounce) +%(0|[1-9][0-9]{0,1}|1[0-9]{2}|2[0-4][0-9]|25[0-5]) +%(0|[1-9][0-9]{0,4}) *\r{0,1}$/ contains=@gbusWord
syntax match gbusLine /\v^ *%(gpio) +%([2-9]|[12][0-9]|3[01]) +%(0|[1-9][0-9]{0,2}|[1-3][0-9]{3}|40[0-8][0-9]|409[0-5]) +%(level) +%([0-7]) +%([01]) *\r{0,1}$/ contains=@gbusWord
syntax match gbusLine /\v^ *%(i2c) +%([@][a-z0-9]{1,16}) +%([2-9]|[12][0-9]|3[01]) +%(0|[1-9][0-9]{0,2}|[1-3][0-9]{3}|40[0-8][0-9]|409[0-5]) +%(functionality) *\r{0,1}$/ contains=@gbusWord
syntax match gbusLine /\v^ *%(i2c) +%([@][a-z0-9]{1,16}) +%([2-9]|[12][0-9]|3[01]) +%(0|[1-9][0-9]{0,2}|[1-3][0-9]{3}|40[0-8][0-9]|409[0-5]) +%(transfer)%(%( +%(r:[0-7][0-9A-Fa-f]:%(0|[1-9][0-9]{0,4})|w:[0-7][0-9A-Fa-f]:%(-|%([0-9A-Fa-f]{2})+)))*) *\r{0,1}$/ contains=@gbusWord
syntax match gbusLine /\v^ *%(spi) +%([@][a-z0-9]{1,16}) +%([2-9]|[12][0-9]|3[01]) +%(0|[1-9][0-9]{0,2}|[1-3][0-9]{3}|40[0-8][0-9]|409[0-5]) +%(config) *\r{0,1}$/ contains=@gbusWord
syntax match gbusLine /\v^ *%(spi) +%([@][a-z0-9]{1,16}) +%([2-9]|[12][0-9]|3[01]) +%(0|[1-9][0-9]{0,2}|[1-3][0-9]{3}|40[0-8][0-9]|409[0-5]) +%(device) +%(0|[1-9][0-9]{0,1}|1[0-9]{2}|2[0-4][0-9]|25[0-5]) *\r{0,1}$/ contains=@gbusWord
syntax match gbusLine /\v^ *%(spi) +%([@][a-z0-9]{1,16}) +%([2-9]|[12][0-9]|3[01]) +%(0|[1-9][0-9]{0,2}|[1-3][0-9]{3}|40[0-8][0-9]|409[0-5]) +%(transfer) +%(0|[1-9][0-9]{0,1}|1[0-9]{2}|2[0-4][0-9]|25[0-5]) +%(0|[1-9][0-9]{0,1}|1[0-9]{2}|2[0-4][0-9]|25[0-5])%(%( +%(r:%(0|[1-9][0-9]{0,4})|[wx]:%(-|%([0-9A-Fa-f]{2})+)))*) *\r{0,1}$/ contains=@gbusWord
syntax match gbusLine /\v^ *%(uart) +%([@][a-z0-9]{1,16}) +%([2-9]|[12][0-9]|3[01]) +%(0|[1-9][0-9]{0,2}|[1-3][0-9]{3}|40[0-8][0-9]|409[0-5]) +%(send) +%(-|%([0-9A-Fa-f]{2})+) *\r{0,1}$/ contains=@gbusWord
syntax match gbusLine /\v^ *%(uart) +%([@][a-z0-9]{1,16}) +%([2-9]|[12][0-9]|3[01]) +%(0|[1-9][0-9]{0,2}|[1-3][0-9]{3}|40[0-8][0-9]|409[0-5]) +%(coding) +%(0|[1-9][0-9]{0,9}) +%(0|[1-9][0-9]{0,1}|1[0-9]{2}|2[0-4][0-9]|25[0-5]) +%(0|[1-9][0-9]{0,1}|1[0-9]{2}|2[0-4][0-9]|25[0-5]) +%(0|[1-9][0-9]{0,1}|1[0-9]{2}|2[0-4][0-9]|25[0-5]) +%(0|[1-9][0-9]{0,1}|1[0-9]{2}|2[0-4][0-9]|25[0-5]) *\r{0,1}$/ contains=@gbusWord
syntax match gbusLine /\v^ *%(uart) +%([@][a-z0-9]{1,16}) +%([2-9]|[12][0-9]|3[01]) +%(0|[1-9][0-9]{0,2}|[1-3][0-9]{3}|40[0-8][0-9]|409[0-5]) +%(control|break|flush) +%(0|[1-9][0-9]{0,1}|1[0-9]{2}|2[0-4][0-9]|25[0-5]) *\r{0,1}$/ contains=@gbusWord
syntax match gbusLine /\v^ *%(uart) +%([2-9]|[12][0-9]|3[01]) +%(0|[1-9][0-9]{0,2}|[1-3][0-9]{3}|40[0-8][0-9]|409[0-5]) +%(state) +%(0|[1-9][0-9]{0,1}|1[0-9]{2}|2[0-4][0-9]|25[0-5]) *\r{0,1}$/ contains=@gbusWord
syntax match gbusLine /\v^ *%(loopback) +%([@][a-z0-9]{1,16}) +%([2-9]|[12][0-9]|3[01]) +%(0|[1-9][0-9]{0,2}|[1-3][0-9]{3}|40[0-8][0-9]|409[0-5]) +%(ping) *\r{0,1}$/ contains=@gbusWord
syntax match gbusLine /\v^ *%(loopback) +%([@][a-z0-9]{1,16}) +%([2-9]|[12][0-9]|3[01]) +%(0|[1-9][0-9]{0,2}|[1-3][0-9]{3}|40[0-8][0-9]|409[0-5]) +%(transfer|sink) +%(-|%([0-9A-Fa-f]{2})+) *\r{0,1}$/ contains=@gbusWord
syntax match gbusLine /\v^ *%(image) +%([a-z0-9]{1,9}) +%(-|%([0-9A-Fa-f]{2})+) *\r{0,1}$/ contains=@gbusWord
syntax match gbusLine /\v^ *%(load) +%([2-9]|[12][0-9]|3[01]) +%(0|[1-9][0-9]{0,2}|[1-3][0-9]{3}|40[0-8][0-9]|409[0-5]) +%([a-z0-9]{1,9}) *\r{0,1}$/ contains=@gbusWord
syntax match gbusLine /\v^ *%(deliver) +%(svc) *\r{0,1}$/ contains=@gbusWord
syntax match gbusLine /\v^ *%(deliver) +%(ap) +%(0|[1-9][0-9]{0,2}|[1-3][0-9]{3}|40[0-8][0-9]|409[0-5]) *\r{0,1}$/ contains=@gbusWord
syntax match gbusLine /\v^ *%(deliver) +%([2-9]|[12][0-9]|3[01]) +%(0|[1-9][0-9]{0,2}|[1-3][0-9]{3}|40[0-8][0-9]|409[0-5]) *\r{0,1}$/ contains=@gbusWord
syntax match gbusLine /\v^ *%(settle) +%([1-9][0-9]{0,4}) *\r{0,1}$/ contains=@gbusWord
syntax match gbusLine /\v^ *%(hold) +%([2-9]|[12][0-9]|3[01]) +%(0|[1-9][0-9]{0,2}|[1-3][0-9]{3}|40[0-8][0-9]|409[0-5]) *\r{0,1}$/ contains=@gbusWord
syntax match gbusLine /\v^ *%(answer) +%([2-9]|[12][0-9]|3[01]) +%(0|[1-9][0-9]{0,2}|[1-3][0-9]{3}|40[0-8][0-9]|409[0-5]) +%([1-9][0-9]{0,9}) *\r{0,1}$/ contains=@gbusWord
syntax match gbusLine /\v^ *%(inject) +%([2-9]|[12][0-9]|3[01]) +%(0|[1-9][0-9]{0,2}|[1-3][0-9]{3}|40[0-8][0-9]|409[0-5]) +%(-|%([0-9A-Fa-f]{2})+) *\r{0,1}$/ contains=@gbusWord
syntax match gbusLine /\v^ *%(cancel) +%([@][a-z0-9]{1,16}) *\r{0,1}$/ contains=@gbusWord
syntax match gbusLine /\v^ *%(copy) +%([@][a-z0-9]{1,16}) +%([@][a-z0-9]{1,16}) *\r{0,1}$/ contains=@gbusWord
syntax match gbusLine /\v^ *%(drop) +%([@][a-z0-9]{1,16}) *\r{0,1}$/ contains=@gbusWord
syntax match gbusLine /\v^ *%(tick) +%([1-9][0-9]{0,9}) *\r{0,1}$/ contains=@gbusWord
syntax match gbusLine /\v^ *%(show) *\r{0,1}$/ contains=@gbusWord
syntax match gbusLine /\v^ *%(requester) +%([1-8]) *\r{0,1}$/ contains=@gbusWord
syntax match gbusComment /\v^ *#.*$/
syntax match gbusHex /\v<[0-9A-Fa-f]+>|-/ contained
syntax match gbusNumber /\v<[0-9]+>/ contained
syntax match gbusName /\v[@][a-z0-9]+/ contained
syntax match gbusOp /\v<[rwx]:/ contained
syntax match gbusKey /\v<%(gpio|i2c|spi|uart|bridge|loopback|firmware|raw|drain|svc|ping|timeout|count|activate|deactivate|direction|in|get|mask|unmask|out|set|irq|debounce|level|functionality|transfer|config|device|send|coding|control|break|flush|state|sink|ap)>/ contained
syntax match gbusEvent /\v^ *[a-z0-9]+/ contained
syntax cluster gbusWord contains=gbusHex,gbusNumber,gbusName,gbusOp,gbusKey,gbusEvent
highlight default link gbusError Error
highlight default link gbusComment Comment
highlight default link gbusEvent Statement
highlight default link gbusKey Keyword
highlight default link gbusName Identifier
highlight default link gbusNumber Number
highlight default link gbusHex Constant
highlight default link gbusOp Operator
let b:current_syntax = 'gbus'
