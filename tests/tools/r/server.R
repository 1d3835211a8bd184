# A server by httpuv, whose loop has a thread of its own, answers a request of this program's.
library(httpuv)
port <- randomPort(host = "127.0.0.1")
hello <- function(request) list(status = 200L, headers = list("Content-Type" = "text/plain"), body = "hello")
server <- startServer("127.0.0.1", port, list(call = hello))
client <- socketConnection("127.0.0.1", port, open = "r+b", blocking = FALSE)
writeLines(c("GET / HTTP/1.0", "", ""), client, sep = "\r\n")
answer <- character()
while (!any(grepl("hello", answer))) {
  service(10)
  answer <- c(answer, readLines(client, warn = FALSE))
}
close(client)
stopServer(server)
cat(tail(answer, 1), "\n")
