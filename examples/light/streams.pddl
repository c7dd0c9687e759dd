(define (stream light))
