#!/usr/bin/env bash
# Makes a node's certificate for the other nodes of its log: node-certificate.sh FOLDER NAME HOST writes NAME.pem and NAME.key into FOLDER, for the HOST of the node's
# nodes-address (a name or an address). The first one makes the CA of the nodes, nodes-ca.pem and nodes-ca.key. Certificates last for ten years.
set -eu
folder=$1 name=$2 host=$3
umask 077
cd "$folder"
if [ ! -e nodes-ca.pem ]; then
  openssl ecparam -name prime256v1 -genkey -noout -out nodes-ca.key
  openssl req -x509 -key nodes-ca.key -subj "/CN=the nodes of a log" -days 3650 -out nodes-ca.pem
fi
if [ -e "$name.pem" ]; then
  echo "node-certificate.sh: $folder/$name.pem exists (remove it and its key to make another one)" >&2
  exit 1
fi
kind=DNS
case $host in *[!0-9.]*) ;; *) kind=IP ;; esac
case $host in *:*) kind=IP ;; esac
openssl ecparam -name prime256v1 -genkey -noout -out "$name.key"
openssl req -new -key "$name.key" -subj "/CN=$name" |
  openssl x509 -req -CA nodes-ca.pem -CAkey nodes-ca.key -CAcreateserial -days 3650 -extfile <(echo "subjectAltName=$kind:$host
extendedKeyUsage=serverAuth,clientAuth") -out "$name.pem" 2>/dev/null
