# Two servers by httpuv; a client of one goes before its answer, which a timer of later's gives.
library(httpuv)
library(later)
ports <- c(randomPort(host = "127.0.0.1"), randomPort(host = "127.0.0.1"))
answered <- 0
late <- function(request) {
  answered <<- answered + 1
  list(status = 200L, headers = list(), body = paste(rep("late", 1000), collapse = " "))
}
servers <- lapply(ports, function(port) startServer("127.0.0.1", port, list(call = late)))
client <- socketConnection("127.0.0.1", ports[1], open = "r+b", blocking = FALSE)
writeLines(c("GET / HTTP/1.0", "", ""), client, sep = "\r\n")
close(client)
is_over <- FALSE
later(function() is_over <<- TRUE, 0.5)
while (!is_over) {
  service(10)
  run_now(0)
}
lapply(servers, stopServer)
cat("over\n")
